[[noreturn]] void f_die(u32); // 0x2000
u32 f_chk(u32 p_register_38)
{
  u32 v1;
  if (p_register_38 == (u32)0x0) {
    f_die(p_register_38);
  }
  v1 = DIV((u32)0x64, p_register_38);
  return v1;
}
