u64 f_wide_sum(u32 in_register_0, u32 in_register_4, u32 in_register_10, u32 in_register_14, u32 in_register_20, u32 in_register_24, u8 in_register_200, u32 in_register_288, u32 in_unique_0, u32 in_unique_8)
{
  in_register_200 = CARRY(in_register_10, in_register_20);
  in_register_0 = in_register_10 + in_register_20;
  in_unique_0 = in_register_14 + in_register_24;
  in_unique_8 = (u32)in_register_200;
  in_register_4 = in_unique_0 + in_unique_8;
  return CONCAT(in_register_4, in_register_0);
}
