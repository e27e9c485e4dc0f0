u32 f_cmp(s32 p_register_38, s32 p_register_30)
{
  if (p_register_38 < p_register_30) {
    return (u32)0x2;
  }
  return (u32)0x1;
}
