void f_nop(void)
{
  return;
}
