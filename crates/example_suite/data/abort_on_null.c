[[noreturn]] void f_abort(void); // 0x2000
u64 f_abort_on_null(u64 in_register_0, u64 in_register_38, u8 in_register_206, u64 in_register_288)
{
  in_register_206 = (u8)(in_register_38 == (u64)0x0);
  if (in_register_206) {
    goto L1;
  }
  in_register_0 = *(u64 *)(in_register_38);
  return in_register_0;
  L1:
  f_abort();
}
