u32 f_low_byte(u8 in_register_0, u8 in_register_1, u16 in_register_2, u32 in_register_38, u64 in_register_288)
{
  u32 v1;
  v1 = in_register_38;
  in_register_0 = (u8)v1;
  in_register_1 = SUB1(v1, 0x1);
  in_register_2 = SUB2(v1, 0x2);
  in_register_0 = in_register_0 + in_register_1;
  return CONCAT(in_register_2, CONCAT(in_register_1, in_register_0));
}
