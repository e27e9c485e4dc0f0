u64 f_work(u64); // 0x2000
u64 f_wrapper(u64 in_register_0, u64 in_register_38, u64 in_register_288)
{
  in_register_38 = in_register_38 + in_register_38;
  in_register_0 = f_work(in_register_38);
  in_register_38 = EXTRAOUT8(0x38);
  in_register_288 = EXTRAOUT8(0x288);
  in_register_0 = in_register_0 + (u64)0x1;
  return in_register_0;
}
