u64 f_g(u64); // 0x2000
u64 f_f(u64 p_register_38)
{
  u64 v1;
  u64 v2;
  v1 = f_g(p_register_38);
  v2 = *(u64 *)(v1);
  return v2;
}
