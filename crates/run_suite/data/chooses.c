u32 f_f(u32 p_register_38)
{
  switch (p_register_38) {
  case 0x1:
  case 0x2:
    return (u32)0xa;
  case 0x3:
    return (u32)0xb;
  }
  return (u32)0xc;
}
