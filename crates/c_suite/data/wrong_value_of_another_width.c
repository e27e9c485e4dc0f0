u32 f_f(u32 p_register_38)
{
  u32 v1;
  v1 = (u8)0x0;
  return v1;
}
