u32 f_compare_chain(u32 in_register_0, u32 in_register_38, u8 in_register_200, u64 in_register_288)
{
  in_register_0 = (u32)0x0;
  in_register_200 = (u8)(in_register_38 < (u32)0xa);
  if (in_register_200) {
    goto L1;
  }
  in_register_0 = (u32)0x1;
  in_register_200 = (u8)(in_register_38 < (u32)0x14);
  if (in_register_200) {
    goto L1;
  }
  in_register_0 = (u32)0x2;
  in_register_200 = (u8)(in_register_38 < (u32)0x1e);
  if (in_register_200) {
    goto L1;
  }
  in_register_0 = (u32)0x3;
  L1:
  return in_register_0;
}
