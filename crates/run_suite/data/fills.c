u32 f_f(u32 p_register_38)
{
  while (p_register_38 != (u32)0x0) {
    p_register_38 = p_register_38 - (u32)0x1;
    MEM1(io, p_register_38) = (u8)0x7;
  }
  return p_register_38;
}
