u32 f_low(u24 in_register_1)
{
  return CONCAT(in_register_1, (u8)0x7);
}
