u32 f_f(u32 in_register_0, u64 in_register_288)
{
  in_register_0 = *(u32 *)((u64)0x4fff);
  *(u32 *)((u64)0x5001) = in_register_0;
  return in_register_0;
}
