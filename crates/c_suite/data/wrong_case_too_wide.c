u32 f_s(u32 p_register_38, s32 p_register_30)
{
  L1:
  switch (p_register_38) {
  case 0x0:
    goto L1;
  case 0x100000000:
    break;
  }
  return p_register_38 + (u32)p_register_30;
}
