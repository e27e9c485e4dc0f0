u32 f_g(u32); // 0x2000
void g_0(void); // 0x0
[[noreturn]] void f_die(u8); // 0xffffffffffffffff
u32 f_f(u32 p_register_38, s32 p_stack_m8, u8 in_register_0, u128 in_unique_ffffffffffffffff, u64 in_stack_m80000000, s64 in_stack_7fffffff)
{
  u32 v1;
  s128 v2;
  p_register_38 = -p_register_38;
  p_register_38 = ~(-(u32)p_stack_m8);
  p_register_38 = p_register_38 + (u32)p_stack_m8;
  p_register_38 = (p_register_38 + (u32)p_stack_m8) - p_register_38;
  p_register_38 = p_register_38 * (u32)0xffffffff;
  p_register_38 = p_register_38 & (u32)p_stack_m8;
  p_register_38 = p_register_38 | (u32)p_stack_m8;
  p_register_38 = p_register_38 ^ (u32)0x1;
  p_register_38 = p_register_38 / (u32)0x3;
  p_register_38 = p_register_38 % (u32)0x3;
  p_register_38 = (u32)(p_stack_m8 / (s32)(u32)0x3);
  p_register_38 = (u32)((s32)p_register_38 % (s32)(u32)0x3);
  p_register_38 = p_register_38 << (u8)0x1f;
  p_register_38 = SHL(p_register_38, (u8)0x20);
  p_register_38 = p_register_38 >> (u32)0x0;
  p_register_38 = SHR(p_register_38, in_register_0);
  p_register_38 = SAR(p_register_38, (u8)0x1);
  p_register_38 = (u32)(u8)(p_register_38 == (u32)p_stack_m8);
  p_register_38 = (u32)(u8)(p_register_38 != (u32)p_stack_m8);
  p_register_38 = (u32)(u8)((p_register_38 + p_register_38) < (u32)p_stack_m8);
  p_register_38 = (u32)(u8)(p_register_38 <= (u32)p_stack_m8);
  p_register_38 = (u32)(u8)((s32)p_register_38 < p_stack_m8);
  p_register_38 = (u32)(u8)(p_stack_m8 <= (s32)p_register_38);
  p_register_38 = (u32)(s8)in_register_0;
  p_register_38 = (u32)(s8)CARRY(p_register_38, (u32)p_stack_m8);
  p_register_38 = (u32)SCARRY(p_register_38, (u32)p_stack_m8);
  p_register_38 = (u32)SBORROW(p_register_38, (u32)p_stack_m8);
  p_register_38 = (u32)in_stack_m80000000;
  p_register_38 = SUB4(in_stack_m80000000, 0x4);
  p_register_38 = SUB4(CONCAT(in_stack_m80000000, (u64)in_stack_7fffffff), 0xc);
  p_register_38 = (u32)POPCOUNT(in_unique_ffffffffffffffff);
  p_register_38 = (u32)LZCOUNT(in_unique_ffffffffffffffff);
  p_stack_m8 = (s32)p_register_38;
  p_stack_m8 = p_stack_m8;
  in_unique_ffffffffffffffff = (u128)0xffffffffffffffffffffffffffffffffuwb;
  in_unique_ffffffffffffffff = (u128)0x10000000000000000uwb;
  in_unique_ffffffffffffffff = (u128)0xffffffffffffffff;
  in_unique_ffffffffffffffff = (u128)0x0;
  v1 = *(u32 *)(in_stack_m80000000);
  v1 = MEM4(m_1, in_stack_m80000000);
  *(u32 *)(in_stack_m80000000) = p_register_38;
  MEM4(m_1, in_stack_m80000000) = p_register_38 + p_register_38;
  p_register_38 = f_g(p_register_38);
  v2 = EXTRAOUT16(0x0);
  v2 = EXTRAOUT16(0xffffffffffffffff);
  f_g(p_register_38);
  g_0();
  p_register_38 = CALLIND4(in_stack_m80000000, p_register_38, in_register_0);
  CALLIND0(in_stack_m80000000);
  p_register_38 = OTHER4(0x5, p_register_38);
  OTHER0(0xffffffffffffffff);
  p_register_38 = DIV(p_register_38, (u32)p_stack_m8);
  p_register_38 = SDIV(p_register_38, (u32)p_stack_m8);
  p_register_38 = REM(p_register_38, (u32)p_stack_m8);
  p_register_38 = SREM(p_register_38, (u32)p_stack_m8);
  if (p_register_38 == (u32)p_stack_m8) {
    goto L1;
  }
  if (in_register_0) {
  } else {
    goto L2;
  }
  while ((s32)p_register_38 < p_stack_m8) {
    break;
  }
  do {
    L1:
  } while (~p_register_38);
  while (1) {
    if (p_register_38) {
      break;
    }
  }
  switch (p_register_38) {
  case 0x0:
  case 0xffffffff:
    break;
  case 0x1:
    f_die(in_register_0);
  case 0x2:
    goto L1;
  case 0x3:
    while (1) {
      break;
    }
    break;
  case 0x4:
    return p_register_38;
  }
  switch (in_register_0) {
  }
  L2:
  return p_register_38;
}
