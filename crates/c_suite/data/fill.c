void f_fill(u64 p_register_38, u8 p_register_0, u32 p_register_8)
{
  while (p_register_8 != (u32)0x0) {
    p_register_8 = p_register_8 - (u32)0x1;
    *(u8 *)(p_register_38) = p_register_0;
    p_register_38 = p_register_38 + (u64)0x1;
  }
  return;
}
