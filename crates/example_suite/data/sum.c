u32 f_sum(u32 in_register_0, u32 in_register_8, u32 in_register_38, u64 in_register_288, u8 in_unique_0)
{
  in_register_0 = (u32)0x0;
  in_register_8 = (u32)0x1;
  L1:
  in_unique_0 = (u8)(in_register_38 < in_register_8);
  if (in_unique_0) {
    goto L2;
  }
  in_register_0 = in_register_0 + in_register_8;
  in_register_8 = in_register_8 + (u32)0x1;
  goto L1;
  L2:
  return in_register_0;
}
