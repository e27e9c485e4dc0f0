u32 f_f(u32 in_register_0, u32 p_register_8)
{
  return p_register_8;
}
