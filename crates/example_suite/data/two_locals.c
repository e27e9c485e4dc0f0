u64 f_two_locals(u64 in_register_0, u64 in_register_20, u64 in_register_28, u64 in_register_30, u64 in_register_38, u64 in_register_288, u64 in_unique_0, u64 in_unique_8, u64 in_unique_10, u64 in_stack_m18, u64 in_stack_m10, u64 in_stack_m8, u64 in_stack_0)
{
  in_unique_0 = in_register_28;
  in_register_20 = in_register_20 - (u64)0x8;
  in_stack_m8 = in_unique_0;
  in_register_28 = in_register_20;
  in_unique_8 = in_register_28 + (u64)0xfffffffffffffff8;
  in_stack_m10 = in_register_38;
  in_unique_8 = in_register_28 + (u64)0xfffffffffffffff0;
  in_stack_m18 = in_register_30;
  in_unique_8 = in_register_28 + (u64)0xfffffffffffffff8;
  in_register_0 = in_stack_m10;
  in_unique_8 = in_register_28 + (u64)0xfffffffffffffff0;
  in_unique_10 = in_stack_m18;
  in_register_0 = in_register_0 + in_unique_10;
  in_register_28 = in_stack_m8;
  in_register_20 = in_register_20 + (u64)0x8;
  in_register_288 = in_stack_0;
  in_register_20 = in_register_20 + (u64)0x8;
  return in_register_0;
}
