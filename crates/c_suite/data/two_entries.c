u32 f_two(u32 p_register_38, u32 p_register_30)
{
  if (p_register_38 != (u32)0x0) {
    L1:
    p_register_30 = p_register_30 + (u32)0x3;
  }
  p_register_30 = p_register_30 * (u32)0x5;
  if ((u32)0x64 <= p_register_30) {
    return p_register_30;
  }
  goto L1;
}
