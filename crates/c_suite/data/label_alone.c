u32 f_f(u32 p_register_38)
{
  L1:
  return p_register_38;
}
