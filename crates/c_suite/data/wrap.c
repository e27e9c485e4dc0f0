u128 f_wrap(void)
{
  return (u128)0x1;
}
