void f_spin(void)
{
  L1:
  goto L1;
}
