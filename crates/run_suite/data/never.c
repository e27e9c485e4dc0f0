[[noreturn]] void f_g(u32); // 0x2000
u32 f_f(u32 p_register_38)
{
  f_g(p_register_38);
}
