[[noreturn]] void f_die(u32); // 0x3000
u32 f_f(u32 p_register_38)
{
  f_die(p_register_38);
}
