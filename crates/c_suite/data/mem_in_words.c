u16 f_w(u16 p_register_10)
{
  u16 v1;
  v1 = MEM2(data, p_register_10 * (u16)0x2);
  return v1;
}
