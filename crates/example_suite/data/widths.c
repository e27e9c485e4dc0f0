u64 f_widths(u64 in_register_0, u64 in_register_8, u16 in_register_30, u8 in_register_38, u64 in_register_288)
{
  in_register_0 = (u64)(s8)in_register_38;
  in_register_8 = (u64)in_register_30;
  in_register_0 = in_register_0 + in_register_8;
  return in_register_0;
}
