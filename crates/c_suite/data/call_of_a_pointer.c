u32 f_ind(u32 p_register_38, u32 in_register_18)
{
  u32 v1;
  u32 v2;
  v1 = CALLIND4(in_register_18, p_register_38);
  v2 = EXTRAOUT4(0x4);
  return v1 + v2;
}
