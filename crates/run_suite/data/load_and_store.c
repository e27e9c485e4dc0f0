u32 f_f(u32 in_register_0, u64 in_register_38, u64 in_register_288, u32 in_unique_0)
{
  in_unique_0 = *(u32 *)(in_register_38);
  in_unique_0 = in_unique_0 + (u32)0x1;
  *(u32 *)(in_register_38) = in_unique_0;
  in_register_0 = in_unique_0;
  return in_register_0;
}
