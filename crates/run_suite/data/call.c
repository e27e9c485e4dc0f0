u32 f_g(u32); // 0x2000
u32 f_f(u32 p_register_38)
{
  u32 v1;
  u8 v2;
  v1 = f_g(p_register_38);
  v2 = *(u8 *)((u64)0x5000);
  return CONCAT(SUB3(v1, 0x1), v2);
}
