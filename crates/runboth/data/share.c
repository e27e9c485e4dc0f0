u32 f_told(u32); // 0x3000
u32 f_share(u32 p_register_38, u32 p_register_30)
{
  u32 v1;
  u32 v2;
  v1 = DIV(p_register_38, p_register_30);
  *(u32 *)((u64)0x2000) = v1;
  v2 = f_told(v1);
  return v2;
}
