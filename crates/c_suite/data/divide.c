void f_d(u32 p_register_38)
{
  u32 v1;
  v1 = DIV((u32)0x64, p_register_38);
  *(u32 *)((u64)0x2000) = (u32)0x1;
  return;
}
