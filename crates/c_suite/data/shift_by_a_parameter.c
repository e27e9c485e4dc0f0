u32 f_shl(u32 p_register_38, u64 p_register_30)
{
  return SHL(p_register_38, p_register_30);
}
