u64 f_read(u64); // 0x2000
u64 f_local_address(u64 in_register_0, u64 in_register_20, u64 in_register_38, u64 in_register_288, u64 in_unique_8, u64 in_unique_10, u64 in_stack_m20)
{
  in_register_20 = in_register_20 - (u64)0x18;
  in_unique_8 = in_register_20 + (u64)0x8;
  *(u64 *)(in_unique_8) = in_register_38;
  in_register_38 = in_register_20 + (u64)0x8;
  in_register_20 = in_register_20 - (u64)0x8;
  in_stack_m20 = (u64)0x1013;
  in_register_0 = f_read(in_register_38);
  in_register_38 = EXTRAOUT8(0x38);
  in_register_288 = EXTRAOUT8(0x288);
  in_register_20 = in_register_20 + (u64)0x8;
  in_unique_8 = in_register_20 + (u64)0x8;
  in_unique_10 = *(u64 *)(in_unique_8);
  in_register_0 = in_register_0 + in_unique_10;
  in_register_20 = in_register_20 + (u64)0x18;
  in_register_288 = *(u64 *)(in_register_20);
  in_register_20 = in_register_20 + (u64)0x8;
  return in_register_0;
}
