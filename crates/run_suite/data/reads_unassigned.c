u32 f_f(u32 p_register_38)
{
  u32 v1;
  if (p_register_38 != (u32)0x0) {
    v1 = (u32)0x1;
  }
  return v1;
}
