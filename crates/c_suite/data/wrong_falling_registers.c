u32 f_f(u32 p_register_8, u32 in_register_8, u32 in_register_0)
{
  return p_register_8;
}
