u8 f_flags(u8 in_register_0, u32 in_register_30, u32 in_register_38, u8 in_register_200, u8 in_register_202, u8 in_register_206, u8 in_register_207, u8 in_register_20b, u64 in_register_288, u32 in_unique_0, u32 in_unique_10, u8 in_unique_14, u8 in_unique_15)
{
  in_register_200 = (u8)(in_register_38 < in_register_30);
  in_register_20b = SBORROW(in_register_38, in_register_30);
  in_unique_0 = in_register_38 - in_register_30;
  in_register_207 = (u8)((s32)in_unique_0 < (s32)(u32)0x0);
  in_register_206 = (u8)(in_unique_0 == (u32)0x0);
  in_unique_10 = in_unique_0 & (u32)0xff;
  in_unique_14 = POPCOUNT(in_unique_10);
  in_unique_15 = in_unique_14 & (u8)0x1;
  in_register_202 = (u8)(in_unique_15 == (u8)0x0);
  in_register_0 = (u8)(in_register_20b != in_register_207);
  return in_register_0;
}
