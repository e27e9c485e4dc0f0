void f_spin(void)
{
  while (1) {
  }
}
