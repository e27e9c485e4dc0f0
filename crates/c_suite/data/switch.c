u32 f_sw(u32 p_register_38)
{
  if ((u32)0x5 < p_register_38) {
    return (u32)0x0;
  }
  switch (p_register_38) {
  case 0x0:
  case 0x1:
  case 0x3:
    return (u32)0xa;
  case 0x2:
  case 0x5:
    return (u32)0x14;
  case 0x4:
    return (u32)0x1e;
  }
}
