u32 f_byte_order(u32 in_register_0, u32 in_register_38, u64 in_register_288, u32 in_unique_0, u32 in_unique_4)
{
  in_register_0 = in_register_38 << (u32)0x18;
  in_unique_0 = in_register_38 & (u32)0xff00;
  in_unique_4 = in_unique_0 << (u32)0x8;
  in_register_0 = in_register_0 | in_unique_4;
  in_unique_0 = in_register_38 >> (u32)0x8;
  in_unique_4 = in_unique_0 & (u32)0xff00;
  in_register_0 = in_register_0 | in_unique_4;
  in_unique_0 = in_register_38 >> (u32)0x18;
  in_register_0 = in_register_0 | in_unique_0;
  return in_register_0;
}
