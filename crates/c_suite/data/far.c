u32 f_far(u32 p_register_38)
{
  if (p_register_38 == (u32)0x0) {
    return (u32)0x9;
  }
  return (u32)0x7;
}
