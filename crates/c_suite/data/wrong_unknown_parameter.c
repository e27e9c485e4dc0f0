u32 f_sum(u32 p_register_38)
{
  u32 v1;
  v1 = (u32)0x0;
  while (p_register_38 != (u32)0x0) {
    v1 = v1 + p_register_39;
    p_register_38 = p_register_38 - (u32)0x1;
  }
  return v1;
}
