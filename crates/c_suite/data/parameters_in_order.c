u32 f_f(u32 p_register_8, u32 p_register_0, u32 in_register_0, u32 in_register_8, u32 in_unique_4, u32 in_stack_m4, u32 in_stack_4)
{
  return p_register_8;
}
