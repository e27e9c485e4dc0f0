u32 f_f(u32 p_register_38)
{
  *(u32 *)((u64)0x100) = p_register_38 + (u32)0x1;
  *(u32 *)((u64)0x104) = -p_register_38;
  *(u8 *)((u64)0x108) = (u8)(p_register_38 < (u32)0x5);
  *(u32 *)((u64)0x10c) = p_register_38 << (u32)0x4;
  *(u32 *)((u64)0x110) = SHR(p_register_38, p_register_38);
  *(u32 *)((u64)0x114) = SAR(p_register_38, (u8)0x40);
  *(u32 *)((u64)0x118) = p_register_38 / (u32)0x7;
  *(u32 *)((u64)0x11c) = (u32)((s32)p_register_38 % (s32)(u32)0x7);
  *(u16 *)((u64)0x120) = SUB2(p_register_38, 0x1);
  *(u64 *)((u64)0x128) = CONCAT(p_register_38, (u32)0x1);
  *(u8 *)((u64)0x130) = CARRY(p_register_38, (u32)0x1);
  *(u8 *)((u64)0x131) = POPCOUNT(p_register_38);
  *(u64 *)((u64)0x138) = (u64)(s32)p_register_38;
  return (u32)0x2a;
}
