/* Each pseudo-call of the header at its edges. Prints the line of each that is wrong; ends with 0 where none is. */
#include "pcode2c.h"
#include <stdio.h>

#define TOP 0x80000000000000000000000000000000uwb
#define ONES 0xffffffffffffffffffffffffffffffffuwb

PCODE2C_SPACE(io, 64);

static int wrong;

#define IS(e, v)                                                                                                       \
  do {                                                                                                                 \
    if ((e) != (v)) {                                                                                                  \
      wrong++;                                                                                                         \
      printf("pseudo_calls.c, line %d: %s\n", __LINE__, #e);                                                           \
    }                                                                                                                  \
  } while (0)

/* The sum of the words and the bytes of the result. */
u128 pcode2c_callind(int bytes, int count, const u128 *words)
{
  u128 sum = bytes;
  for (int i = 0; i < count; i++)
    sum += words[i];
  return sum;
}

u128 pcode2c_other(int bytes, int count, const u128 *words)
{
  return pcode2c_callind(bytes, count, words) << 1;
}

u128 pcode2c_extraout(int bytes, u64 offset)
{
  return (u128)offset + (u128)bytes;
}

static void shifts(void)
{
  IS(SHL((u32)1, (u8)31), (u32)0x80000000);
  IS(SHL((u32)1, (u8)32), (u32)0);
  IS(SHL((u8)3, (u128)ONES), (u8)0);
  IS(SHL((u24)0x800001, (u8)1), (u24)2);
  IS(SHR((u24)0x800001, (u8)1), (u24)0x400000);
  IS(SHR((u64)1, (u64)64), (u64)0);
  IS(SAR((u8)0x80, (u8)3), (u8)0xf0);
  IS(SAR((u8)0x80, (u8)8), (u8)0xff);
  IS(SAR((u8)0x40, (u8)8), (u8)0);
  IS(SAR((u24)0xfffffe, (u32)1), (u24)0xffffff);
  IS(SAR((u128)TOP, (u8)127), (u128)ONES);
}

static void parts(void)
{
  IS(SUB2((u64)0x1122334455667788, 0x3), (u16)0x4455);
  IS(SUB3((u32)0x11223344, 0x1), (u24)0x112233);
  IS(CONCAT((u8)0x11, (u24)0x223344), (u32)0x11223344);
  IS(CONCAT(CONCAT((u8)1, (u8)2), CONCAT((u8)3, CONCAT((u8)4, (u8)5))), (u40)0x102030405);
  IS(PCODE2C_BITS(CONCAT((u64)1, (u64)2)), 128);
  IS((u16)((u16)0xffff * (u16)0xffff), (u16)1);
}

static void flags(void)
{
  IS(CARRY((u8)200, (u8)56), (u8)1);
  IS(CARRY((u8)200, (u8)55), (u8)0);
  IS(SCARRY((u8)0x7f, (u8)1), (u8)1);
  IS(SCARRY((u8)0x80, (u8)0xff), (u8)1);
  IS(SCARRY((u8)0x80, (u8)0x7f), (u8)0);
  IS(SBORROW((u8)0x80, (u8)1), (u8)1);
  IS(SBORROW((u8)0x7f, (u8)0xff), (u8)1);
  IS(SBORROW((u8)1, (u8)2), (u8)0);
  IS(SBORROW((u24)0x800000, (u24)1), (u8)1);
  IS(POPCOUNT((u128)ONES), (u8)128);
  IS(POPCOUNT((u8)0), (u8)0);
  IS(LZCOUNT((u24)1), (u8)23);
  IS(LZCOUNT((u128)0), (u8)128);
  IS(LZCOUNT((u8)0x80), (u8)0);
}

static void divisions(void)
{
  IS(DIV((u8)200, (u8)7), (u8)28);
  IS(REM((u8)200, (u8)7), (u8)4);
  IS(SDIV((u8)0x80, (u8)0xff), (u8)0x80);
  IS(SREM((u8)0x80, (u8)0xff), (u8)0);
  IS(SDIV((u8)0xf9, (u8)2), (u8)0xfd);
  IS(SREM((u8)0xf9, (u8)2), (u8)0xff);
  IS(SDIV((u8)7, (u8)0xfe), (u8)0xfd);
  IS(SREM((u8)7, (u8)0xfe), (u8)1);
}

static void memory(void)
{
  MEM3(io, (u64)1) = (u24)0xaabbcc;
  IS(MEM3(io, (u64)1), (u24)0xaabbcc);
  IS(MEM1(io, (u64)3), (u8)0xaa);
  IS(MEM1(io, (u64)4), (u8)0);
  MEM16(io, (u64)5) = (u128)ONES;
  IS(MEM9(io, (u64)5), (u72)ONES);
  IS(MEM1(io, (u64)21), (u8)0);
  MEM8(io, (u64)33) = (u64)5;
  IS(MEM4(io, (u64)33), (u32)5);
}

static void calls(void)
{
  u32 v1;
  u24 v2;
  CALLIND0((u64)5);
  OTHER0(0x3);
  v1 = CALLIND4((u64)5, (u8)1, (u128)2);
  IS(v1, (u32)12);
  v1 = OTHER4(0x3, v1);
  IS(v1, (u32)38);
  v2 = EXTRAOUT3(0x10);
  IS(v2, (u24)0x13);
}

int main(void)
{
  shifts();
  parts();
  flags();
  divisions();
  memory();
  calls();
  return wrong != 0;
}
