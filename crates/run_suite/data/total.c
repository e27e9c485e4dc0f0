u32 f_g(u32); // 0x2000
u32 f_total(u32 in_register_0, u32 in_register_10, u32 in_register_14, u8 in_register_200, u8 in_register_202, u8 in_register_206, u8 in_register_207, u8 in_register_20b, u32 in_register_284, u32 in_unique_0, u32 in_unique_40, u8 in_unique_44, u8 in_unique_48, u32 in_unique_80, u32 in_unique_90, u32 in_unique_94, u8 in_unique_a0, u32 in_stack_m20, u32 in_stack_m1c, u32 in_stack_m14, u32 in_stack_m10, u32 in_stack_m4, u32 in_stack_0, u32 in_stack_4)
{
  in_unique_0 = in_register_14;
  in_register_10 = in_register_10 - (u32)0x4;
  in_stack_m4 = in_unique_0;
  in_register_14 = in_register_10;
  in_register_200 = (u8)(in_register_10 < (u32)0x18);
  in_register_20b = SBORROW(in_register_10, (u32)0x18);
  in_register_10 = in_register_10 - (u32)0x18;
  in_register_207 = (u8)((s32)in_register_10 < (s32)(u32)0x0);
  in_register_206 = (u8)(in_register_10 == (u32)0x0);
  in_unique_40 = in_register_10 & (u32)0xff;
  in_unique_44 = POPCOUNT(in_unique_40);
  in_unique_48 = in_unique_44 & (u8)0x1;
  in_register_202 = (u8)(in_unique_48 == (u8)0x0);
  in_unique_80 = in_register_14 + (u32)0xfffffff4;
  in_stack_m10 = (u32)0x0;
  in_unique_80 = in_register_14 + (u32)0xfffffff0;
  in_stack_m14 = (u32)0x0;
  goto L2;
  L1:
  in_unique_80 = in_register_14 + (u32)0xfffffff0;
  in_register_0 = in_stack_m14;
  in_stack_m1c = in_register_0;
  in_register_10 = in_register_10 - (u32)0x4;
  in_stack_m20 = (u32)0x1021;
  in_register_0 = f_g(in_stack_m1c);
  in_register_200 = EXTRAOUT1(0x200);
  in_register_202 = EXTRAOUT1(0x202);
  in_register_206 = EXTRAOUT1(0x206);
  in_register_207 = EXTRAOUT1(0x207);
  in_register_20b = EXTRAOUT1(0x20b);
  in_register_284 = EXTRAOUT4(0x284);
  in_register_10 = in_register_10 + (u32)0x4;
  in_unique_80 = in_register_14 + (u32)0xfffffff4;
  in_unique_90 = in_stack_m10;
  in_register_200 = CARRY(in_unique_90, in_register_0);
  in_register_20b = SCARRY(in_unique_90, in_register_0);
  in_unique_94 = in_unique_90 + in_register_0;
  in_stack_m10 = in_unique_94;
  in_register_207 = (u8)((s32)in_unique_94 < (s32)(u32)0x0);
  in_register_206 = (u8)(in_unique_94 == (u32)0x0);
  in_unique_80 = in_register_14 + (u32)0xfffffff0;
  in_unique_90 = in_stack_m14;
  in_register_200 = CARRY(in_unique_90, (u32)0x1);
  in_register_20b = SCARRY(in_unique_90, (u32)0x1);
  in_unique_94 = in_unique_90 + (u32)0x1;
  in_stack_m14 = in_unique_94;
  in_register_207 = (u8)((s32)in_unique_94 < (s32)(u32)0x0);
  in_register_206 = (u8)(in_unique_94 == (u32)0x0);
  L2:
  in_unique_80 = in_register_14 + (u32)0xfffffff0;
  in_register_0 = in_stack_m14;
  in_unique_80 = in_register_14 + (u32)0x8;
  in_unique_90 = in_stack_4;
  in_register_200 = (u8)(in_register_0 < in_unique_90);
  in_register_20b = SBORROW(in_register_0, in_unique_90);
  in_unique_94 = in_register_0 - in_unique_90;
  in_register_207 = (u8)((s32)in_unique_94 < (s32)(u32)0x0);
  in_register_206 = (u8)(in_unique_94 == (u32)0x0);
  in_unique_a0 = (u8)(in_register_20b != in_register_207);
  if (in_unique_a0) {
    goto L1;
  }
  in_unique_80 = in_register_14 + (u32)0xfffffff4;
  in_register_0 = in_stack_m10;
  in_register_10 = in_register_14;
  in_register_14 = in_stack_m4;
  in_register_10 = in_register_10 + (u32)0x4;
  in_register_284 = in_stack_0;
  in_register_10 = in_register_10 + (u32)0x4;
  return in_register_0;
}
