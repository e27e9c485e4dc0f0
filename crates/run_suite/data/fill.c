u32 f_f(u32 p_register_38, u32 in_register_0, u64 in_register_40)
{
  do {
    *(u8 *)(in_register_40) = (u8)0xab;
    in_register_40 = in_register_40 + (u64)0x1;
    p_register_38 = p_register_38 - (u32)0x1;
  } while (p_register_38 != (u32)0x0);
  return in_register_0;
}
