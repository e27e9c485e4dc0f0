u32 f_add1(u32 in_register_0, u32 in_register_38, u64 in_register_288)
{
  in_register_0 = in_register_38 + (u32)0x1;
  return in_register_0;
}
