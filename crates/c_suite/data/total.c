u32 f_g(u32); // 0x2000
u32 f_total(s32 p_stack_4)
{
  u32 v1;
  s32 v2;
  u32 v3;
  v1 = (u32)0x0;
  v2 = (s32)(u32)0x0;
  while (v2 < p_stack_4) {
    v3 = f_g((u32)v2);
    v1 = v1 + v3;
    v2 = (s32)((u32)v2 + (u32)0x1);
  }
  return v1;
}
