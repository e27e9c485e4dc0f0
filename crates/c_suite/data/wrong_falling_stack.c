u32 f_f(u32 p_register_8, u32 in_stack_4, u32 in_stack_m4)
{
  return p_register_8;
}
