u32 f_f(u32 p_register_38, u32 in_register_0, u32 in_register_4)
{
  u32 v1;
  do {
    v1 = in_register_0;
    in_register_0 = in_register_4;
    in_register_4 = v1;
    p_register_38 = p_register_38 - (u32)0x1;
  } while (p_register_38 != (u32)0x0);
  return in_register_0;
}
