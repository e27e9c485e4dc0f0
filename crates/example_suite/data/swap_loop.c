u32 f_swap_loop(u32 in_register_0, u32 in_register_8, u32 in_register_10, u32 in_register_30, u32 in_register_38, u64 in_register_288, u8 in_unique_0, u32 in_unique_10)
{
  in_register_8 = in_register_10;
  L1:
  in_unique_0 = (u8)(in_register_8 == (u32)0x0);
  if (in_unique_0) {
    goto L2;
  }
  in_unique_10 = in_register_38;
  in_register_38 = in_register_30;
  in_register_30 = in_unique_10;
  in_register_8 = in_register_8 - (u32)0x1;
  goto L1;
  L2:
  in_register_0 = in_register_38 - in_register_30;
  return in_register_0;
}
