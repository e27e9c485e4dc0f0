u8 f_copy_byte(u8 in_register_0, u64 in_register_30, u64 in_register_38, u64 in_register_288)
{
  in_register_0 = *(u8 *)(in_register_30);
  *(u8 *)(in_register_38) = in_register_0;
  return in_register_0;
}
