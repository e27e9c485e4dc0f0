u8 f_get(u64 p_register_38, u64 p_register_30)
{
  u8 v1;
  v1 = *(u8 *)((p_register_38 + (p_register_30 * (u64)0xc)) + (u64)0x4);
  return v1;
}
