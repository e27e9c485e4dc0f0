u32 f_be(u16 p_register_10)
{
  u32 v1;
  v1 = MEM4(data, p_register_10);
  return CONCAT(SUB3(v1, 0x1), (u8)0x7);
}
