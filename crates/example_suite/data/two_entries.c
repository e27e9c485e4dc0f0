u32 f_two_entries(u32 in_register_0, u32 in_register_30, u32 in_register_38, u64 in_register_288, u8 in_unique_0)
{
  in_register_0 = (u32)0x0;
  in_unique_0 = (u8)(in_register_30 == (u32)0x0);
  if (in_unique_0) {
    goto L2;
  }
  L1:
  in_register_0 = in_register_0 + (u32)0x1;
  L2:
  in_register_0 = in_register_0 * (u32)0x3;
  in_register_38 = in_register_38 - (u32)0x1;
  in_unique_0 = (u8)(in_register_38 != (u32)0x0);
  if (in_unique_0) {
    goto L1;
  }
  return in_register_0;
}
