u32 f_f(u32 in_register_0, u64 in_register_288, u8 in_unique_0)
{
  u8 v1;
  in_register_0 = *(u32 *)((u16)0xfffe);
  *(u32 *)((u16)0xffff) = in_register_0;
  v1 = *(u8 *)((u16)0xffff);
  in_unique_0 = v1;
  return in_register_0;
}
