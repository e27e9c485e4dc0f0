u32 f_get(u64 p_register_38)
{
  u32 v1;
  v1 = *(u32 *)(p_register_38 + (u64)0x1);
  *(u16 *)(p_register_38) = (u16)0x1;
  return v1;
}
