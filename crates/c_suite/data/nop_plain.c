void f_nop(u64 in_register_288)
{
  return;
}
