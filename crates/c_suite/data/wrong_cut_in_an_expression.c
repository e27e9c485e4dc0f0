void f_f(void)
{
  ((((