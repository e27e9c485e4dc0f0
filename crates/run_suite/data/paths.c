u32 f_f(u32 p_register_38)
{
  u32 v1;
  v1 = (u32)0x0;
  while (p_register_38 < (u32)0x10) {
    if (p_register_38 == (u32)0x5) {
      v1 = (u32)0x7;
    } else {
      goto L1;
    }
    p_register_38 = p_register_38 + (u32)0x10;
  }
  switch (p_register_38) {
  case 0x11:
  case 0x15:
    return v1;
  case 0x20:
    v1 = (u32)0xb;
    break;
  }
  L1:
  return v1 + (u32)0x1;
}
