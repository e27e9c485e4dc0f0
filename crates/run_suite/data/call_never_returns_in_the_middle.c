u64 f_g(u64); // 0x4000
[[noreturn]] void f_die(u64); // 0x2000
u64 f_middle(u8 in_register_0, u56 in_register_1, u64 in_register_38, u64 in_register_288)
{
  u64 v1;
  u64 v2;
  v1 = f_g(in_register_38);
  in_register_38 = EXTRAOUT8(0x38);
  in_register_288 = EXTRAOUT8(0x288);
  in_register_0 = (u8)v1;
  in_register_1 = SUB7(v1, 0x1);
  if (in_register_0) {
    goto L1;
  }
  f_die(in_register_38);
  L1:
  v2 = (u64)0x1;
  in_register_0 = (u8)v2;
  in_register_1 = SUB7(v2, 0x1);
  return CONCAT(in_register_1, in_register_0);
}
