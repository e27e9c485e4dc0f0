u32 f_greater(u32 in_register_0, u32 in_register_30, u32 in_register_38, u64 in_register_288, u8 in_unique_0, u8 in_unique_1)
{
  in_register_0 = in_register_38;
  in_unique_0 = (u8)((s32)in_register_38 < (s32)in_register_30);
  in_unique_1 = in_unique_0 ^ (u8)0x1;
  if (in_unique_1) {
    goto L1;
  }
  in_register_0 = in_register_30;
  L1:
  return in_register_0;
}
