void f_f(void)
{
  return;
