u32 f_big_endian(u32 in_register_c, u32 in_register_18, u32 in_register_20, u16 in_unique_0, u32 in_unique_8, u32 in_unique_10, u8 in_unique_18, u16 in_unique_20)
{
  in_unique_0 = *(u16 *)(in_register_18);
  in_unique_8 = in_register_18 + (u32)0x2;
  in_unique_10 = *(u32 *)(in_unique_8);
  in_unique_18 = (u8)in_unique_10;
  in_unique_20 = (u16)in_unique_18;
  in_unique_0 = in_unique_0 + in_unique_20;
  in_register_c = (u32)in_unique_0;
  return in_register_c;
}
