u32 f_f(u32 p_register_38, u64 in_register_40)
{
  u32 v1;
  v1 = p_register_38;
  v1 = v1 + (u32)0x1;
  *(u8 *)(in_register_40) = (u8)0xab;
  return v1;
}
