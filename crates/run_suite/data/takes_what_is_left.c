u32 g_2000(u32); // 0x2000
u32 f_f(u32 p_register_38)
{
  u32 v1;
  u8 v2;
  v1 = g_2000(p_register_38);
  v2 = EXTRAOUT1(0x9);
  return CONCAT(CONCAT(v2, v2), CONCAT(v2, v2));
}
