u32 f_f(u32 in_register_0)
{
  *(u16 *)((u64)0x4fff) = (u16)0xaabb;
  return in_register_0;
}
