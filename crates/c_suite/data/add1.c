u32 f_add1(u32 p_register_38)
{
  return p_register_38 + (u32)0x1;
}
