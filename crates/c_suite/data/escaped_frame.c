void f_g(u64); // 0x2000
u64 f_esc(u64 p_register_38, u64 p_register_30, u64 in_register_20)
{
  u64 v1;
  *(u64 *)(in_register_20 + (u64)0xfffffffffffffff8) = (u64)0x5;
  f_g(in_register_20 + (u64)0xfffffffffffffff8);
  v1 = *(u64 *)(in_register_20 + (u64)0xfffffffffffffff8);
  return v1 + p_register_30;
}
