u32 f_f(u32 p_register_38)
{
  return p_register_38 / (u32)0x0;
}
