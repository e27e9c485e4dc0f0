u64 f_rotate64(u64 in_register_0, u8 in_register_8, u64 in_register_38, u64 in_register_288, u8 in_unique_0, u8 in_unique_1, u64 in_unique_8, u64 in_unique_10)
{
  in_unique_0 = in_register_8 & (u8)0x3f;
  in_unique_1 = (u8)0x40 - in_unique_0;
  in_unique_8 = SHL(in_register_38, in_unique_0);
  in_unique_10 = SHR(in_register_38, in_unique_1);
  in_register_0 = in_unique_8 | in_unique_10;
  return in_register_0;
}
