u64 f_g(u64); // 0x2000
u64 f_two_calls(u64 in_register_0, u64 in_register_10, u64 in_register_38, u64 in_register_288)
{
  in_register_0 = f_g(in_register_38);
  in_register_38 = EXTRAOUT8(0x38);
  in_register_288 = EXTRAOUT8(0x288);
  in_register_10 = in_register_0;
  in_register_0 = f_g(in_register_38);
  in_register_38 = EXTRAOUT8(0x38);
  in_register_288 = EXTRAOUT8(0x288);
  in_register_0 = in_register_0 + in_register_10;
  return in_register_0;
}
