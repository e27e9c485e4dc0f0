void f_g(u64); // 0x2000
u64 f_esc(u64 in_register_0, u64 in_register_20, u64 in_register_30, u64 in_register_38, u64 in_register_288, u64 in_unique_0, u64 in_unique_8, u64 in_unique_10, u64 in_unique_18, u64 in_unique_20, u64 in_unique_28, u64 in_stack_m28, u64 in_stack_m10)
{
  in_unique_0 = in_register_20 + (u64)0xfffffffffffffff8;
  *(u64 *)(in_unique_0) = (u64)0x5;
  in_unique_8 = in_register_20 + (u64)0xfffffffffffffff0;
  in_stack_m10 = in_register_30;
  in_register_38 = in_register_20 + (u64)0xfffffffffffffff8;
  in_register_20 = in_register_20 - (u64)0x20;
  in_register_20 = in_register_20 - (u64)0x8;
  in_stack_m28 = (u64)0x1011;
  f_g(in_register_38);
  in_register_0 = EXTRAOUT8(0x0);
  in_register_30 = EXTRAOUT8(0x30);
  in_register_38 = EXTRAOUT8(0x38);
  in_register_288 = EXTRAOUT8(0x288);
  in_register_20 = in_register_20 + (u64)0x8;
  in_unique_10 = in_register_20 + (u64)0x18;
  in_unique_18 = *(u64 *)(in_unique_10);
  in_unique_20 = in_register_20 + (u64)0x10;
  in_unique_28 = in_stack_m10;
  in_register_0 = in_unique_18 + in_unique_28;
  return in_register_0;
}
