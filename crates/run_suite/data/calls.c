u32 g_2000(u32); // 0x2000
u32 f_f(u32 p_register_38)
{
  u32 v1;
  u32 v2;
  v1 = g_2000(p_register_38);
  v2 = *(u32 *)((u64)0x80);
  return v1 + v2;
}
