u32 f_average(u32 in_register_0, u32 in_register_30, u32 in_register_38, u64 in_register_288)
{
  in_register_0 = DIV(in_register_38, in_register_30);
  in_register_0 = in_register_0 / (u32)0xa;
  return in_register_0;
}
