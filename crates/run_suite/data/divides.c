u32 f_f(u32 p_register_38)
{
  u32 v1;
  v1 = DIV((u32)0x64, p_register_38);
  return v1;
}
