[[noreturn]] u32 f_a(void); // 0x1
void g_2(u8); // 0x2
void f_c(u8 in_register_0)
{
  u32 v1;
  if (in_register_0) {
    f_a();
  }
  g_2(in_register_0);
  v1 = EXTRAOUT4(0x0);
  CALLIND0(in_register_0);
  in_register_0 = SAR(in_register_0, v1);
}
