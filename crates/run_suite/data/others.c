u32 f_f(u32 p_register_38)
{
  u32 v1;
  v1 = OTHER4(0x7, p_register_38, (u8)0x2a);
  return v1;
}
