/* What the C that pcode2c prints asks for: the types and the pseudo-calls, so that a text compiles as C23.

   Include it before the text. It wants a compiler that knows _BitInt with its suffix uwb, and statement expressions
   (clang 15 or later, GCC 14 or later). It is no part of what is proved: the proof is about the meaning of the text that
   docs/C_SUBSET.md and docs/RUNS.md give, which this header follows; tests/header.sh compares it with the proved runs.

   What a function meets outside itself are hooks. The user defines those that a text names:

     NAME                 each callee that the text declares is a function of the user's
     pcode2c_callind      CALLINDw: the bytes of the result (0 for none), how many words follow, and the words: the
                          target, then the arguments; gives the result
     pcode2c_other        OTHERw: likewise, the index of the operation in the place of the target
     pcode2c_extraout     EXTRAOUTw: the bytes, and the offset in the register space
     PCODE2C_DIVZERO()    a macro, where a divisor is 0; it must not return (default: abort)
     PCODE2C_PLACE(s, a)  a macro: where the byte at address a of the ram space s stands (default: in an array that
                          PCODE2C_SPACE(s, SIZE) makes; whether a lies in it isn't tested)

   A load or store in the first ram space is printed as C's own, *(u32 *)(a): it is one of the process that runs the
   text, at the address a (-Wno-int-to-pointer-cast where addresses are narrower than pointers). It and the default
   memory have words by the order of the machine that the text is compiled for. C's own also asks for C's alignment, and
   moves w bytes only where w is 1, 2, 4, 8 or 16. */
#ifndef PCODE2C_H
#define PCODE2C_H

#include <stdlib.h>

/* The types: uW and sW have W bits. Never uint16_t and its like, whose products overflow as int. */

typedef unsigned _BitInt(8) u8;
typedef unsigned _BitInt(16) u16;
typedef unsigned _BitInt(24) u24;
typedef unsigned _BitInt(32) u32;
typedef unsigned _BitInt(40) u40;
typedef unsigned _BitInt(48) u48;
typedef unsigned _BitInt(56) u56;
typedef unsigned _BitInt(64) u64;
typedef unsigned _BitInt(72) u72;
typedef unsigned _BitInt(80) u80;
typedef unsigned _BitInt(88) u88;
typedef unsigned _BitInt(96) u96;
typedef unsigned _BitInt(104) u104;
typedef unsigned _BitInt(112) u112;
typedef unsigned _BitInt(120) u120;
typedef unsigned _BitInt(128) u128;

typedef _BitInt(8) s8;
typedef _BitInt(16) s16;
typedef _BitInt(24) s24;
typedef _BitInt(32) s32;
typedef _BitInt(40) s40;
typedef _BitInt(48) s48;
typedef _BitInt(56) s56;
typedef _BitInt(64) s64;
typedef _BitInt(72) s72;
typedef _BitInt(80) s80;
typedef _BitInt(88) s88;
typedef _BitInt(96) s96;
typedef _BitInt(104) s104;
typedef _BitInt(112) s112;
typedef _BitInt(120) s120;
typedef _BitInt(128) s128;

/* The bits of an unsigned word, as a constant of its type. */
#define PCODE2C_BITS(a)                                                                                                \
  _Generic((a), u8: 8, u16: 16, u24: 24, u32: 32, u40: 40, u48: 48, u56: 56, u64: 64, u72: 72, u80: 80, u88: 88,       \
      u96: 96, u104: 104, u112: 112, u120: 120, u128: 128)

/* A pseudo-call names each of its operands once, in a block of its own, so that nested ones stay short. */

/* Shifts by any count. */

#define SHL(a, b)                                                                                                      \
  __extension__({                                                                                                      \
    __auto_type a_ = (a);                                                                                              \
    __auto_type b_ = (b);                                                                                              \
    b_ < PCODE2C_BITS(a_) ? (__typeof__(a_))(a_ << b_) : (__typeof__(a_))0;                                            \
  })

#define SHR(a, b)                                                                                                      \
  __extension__({                                                                                                      \
    __auto_type a_ = (a);                                                                                              \
    __auto_type b_ = (b);                                                                                              \
    b_ < PCODE2C_BITS(a_) ? (__typeof__(a_))(a_ >> b_) : (__typeof__(a_))0;                                            \
  })

/* All ones where the word is negative, else all zeros. */
#define PCODE2C_SIGNS(a) ((__typeof__(a))-((a) >> (PCODE2C_BITS(a) - 1)))

#define SAR(a, b)                                                                                                      \
  __extension__({                                                                                                      \
    __auto_type v_ = (a);                                                                                              \
    __auto_type c_ = (b);                                                                                              \
    __typeof__(v_) s_ = PCODE2C_SIGNS(v_);                                                                             \
    c_ < PCODE2C_BITS(v_) ? (__typeof__(v_))(((v_ ^ s_) >> c_) ^ s_) : s_;                                             \
  })

/* Parts and joins. */

#define SUB1(a, k) ((u8)((a) >> (8 * (k))))
#define SUB2(a, k) ((u16)((a) >> (8 * (k))))
#define SUB3(a, k) ((u24)((a) >> (8 * (k))))
#define SUB4(a, k) ((u32)((a) >> (8 * (k))))
#define SUB5(a, k) ((u40)((a) >> (8 * (k))))
#define SUB6(a, k) ((u48)((a) >> (8 * (k))))
#define SUB7(a, k) ((u56)((a) >> (8 * (k))))
#define SUB8(a, k) ((u64)((a) >> (8 * (k))))
#define SUB9(a, k) ((u72)((a) >> (8 * (k))))
#define SUB10(a, k) ((u80)((a) >> (8 * (k))))
#define SUB11(a, k) ((u88)((a) >> (8 * (k))))
#define SUB12(a, k) ((u96)((a) >> (8 * (k))))
#define SUB13(a, k) ((u104)((a) >> (8 * (k))))
#define SUB14(a, k) ((u112)((a) >> (8 * (k))))
#define SUB15(a, k) ((u120)((a) >> (8 * (k))))

#define CONCAT(a, b)                                                                                                   \
  __extension__({                                                                                                      \
    __auto_type a_ = (a);                                                                                              \
    __auto_type b_ = (b);                                                                                              \
    typedef unsigned _BitInt(PCODE2C_BITS(a_) + PCODE2C_BITS(b_)) whole_;                                              \
    (whole_)((whole_)((whole_)a_ << PCODE2C_BITS(b_)) | (whole_)b_);                                                   \
  })

/* Flags of sums and differences. */

#define CARRY(a, b)                                                                                                    \
  __extension__({                                                                                                      \
    __auto_type a_ = (a);                                                                                              \
    __auto_type b_ = (b);                                                                                              \
    (u8)((__typeof__(a_))(a_ + b_) < a_);                                                                              \
  })

#define SCARRY(a, b)                                                                                                   \
  __extension__({                                                                                                      \
    __auto_type a_ = (a);                                                                                              \
    __auto_type b_ = (b);                                                                                              \
    __typeof__(a_) r_ = a_ + b_;                                                                                       \
    (u8)(((a_ ^ r_) & (b_ ^ r_)) >> (PCODE2C_BITS(a_) - 1));                                                           \
  })

#define SBORROW(a, b)                                                                                                  \
  __extension__({                                                                                                      \
    __auto_type a_ = (a);                                                                                              \
    __auto_type b_ = (b);                                                                                              \
    __typeof__(a_) r_ = a_ - b_;                                                                                       \
    (u8)(((a_ ^ b_) & (a_ ^ r_)) >> (PCODE2C_BITS(a_) - 1));                                                           \
  })

/* Counts of bits. */

#define POPCOUNT(a)                                                                                                    \
  __extension__({                                                                                                      \
    __auto_type a_ = (a);                                                                                              \
    u8 n_ = 0;                                                                                                         \
    for (; a_ != 0; a_ &= a_ - 1)                                                                                      \
      n_++;                                                                                                            \
    n_;                                                                                                                \
  })

#define LZCOUNT(a)                                                                                                     \
  __extension__({                                                                                                      \
    __auto_type a_ = (a);                                                                                              \
    u8 n_ = PCODE2C_BITS(a_);                                                                                          \
    for (; a_ != 0; a_ >>= 1)                                                                                          \
      n_--;                                                                                                            \
    n_;                                                                                                                \
  })

/* Divisions whose divisor may be 0. The signed ones divide the absolute values, so that none overflows. */

#ifndef PCODE2C_DIVZERO
#define PCODE2C_DIVZERO() abort()
#endif

#define PCODE2C_ABSOLUTE(a) ((__typeof__(a))(((a) ^ PCODE2C_SIGNS(a)) - PCODE2C_SIGNS(a)))

#define PCODE2C_DIVISION(a, b, quotient)                                                                               \
  __extension__({                                                                                                      \
    __auto_type a_ = (a);                                                                                              \
    __auto_type b_ = (b);                                                                                              \
    if (b_ == 0)                                                                                                       \
      PCODE2C_DIVZERO();                                                                                               \
    (__typeof__(a_))(quotient);                                                                                        \
  })

#define DIV(a, b) PCODE2C_DIVISION(a, b, a_ / b_)
#define REM(a, b) PCODE2C_DIVISION(a, b, a_ % b_)
#define SDIV(a, b)                                                                                                     \
  PCODE2C_DIVISION(a, b,                                                                                               \
      ((PCODE2C_ABSOLUTE(a_) / PCODE2C_ABSOLUTE(b_)) ^ PCODE2C_SIGNS(a_) ^ PCODE2C_SIGNS(b_)) -                        \
          (PCODE2C_SIGNS(a_) ^ PCODE2C_SIGNS(b_)))
#define SREM(a, b)                                                                                                     \
  PCODE2C_DIVISION(                                                                                                    \
      a, b, ((PCODE2C_ABSOLUTE(a_) % PCODE2C_ABSOLUTE(b_)) ^ PCODE2C_SIGNS(a_)) - PCODE2C_SIGNS(a_))

/* Memory of ram spaces but the first: MEMw is a place that is read or assigned, of exactly w bytes. */

#define PCODE2C_SPACE(space, size) __attribute__((unused)) static unsigned char space##_bytes[size]

#ifndef PCODE2C_PLACE
#define PCODE2C_PLACE(space, address) (space##_bytes + (address))
#endif

#define PCODE2C_WORD(bits)                                                                                             \
  struct pcode2c_##bits {                                                                                              \
    u##bits word : bits;                                                                                               \
  } __attribute__((packed, may_alias))

PCODE2C_WORD(8);
PCODE2C_WORD(16);
PCODE2C_WORD(24);
PCODE2C_WORD(32);
PCODE2C_WORD(40);
PCODE2C_WORD(48);
PCODE2C_WORD(56);
PCODE2C_WORD(64);
PCODE2C_WORD(72);
PCODE2C_WORD(80);
PCODE2C_WORD(88);
PCODE2C_WORD(96);
PCODE2C_WORD(104);
PCODE2C_WORD(112);
PCODE2C_WORD(120);
PCODE2C_WORD(128);

#define PCODE2C_MEM(bits, space, address) (((struct pcode2c_##bits *)PCODE2C_PLACE(space, address))->word)

#define MEM1(space, a) PCODE2C_MEM(8, space, a)
#define MEM2(space, a) PCODE2C_MEM(16, space, a)
#define MEM3(space, a) PCODE2C_MEM(24, space, a)
#define MEM4(space, a) PCODE2C_MEM(32, space, a)
#define MEM5(space, a) PCODE2C_MEM(40, space, a)
#define MEM6(space, a) PCODE2C_MEM(48, space, a)
#define MEM7(space, a) PCODE2C_MEM(56, space, a)
#define MEM8(space, a) PCODE2C_MEM(64, space, a)
#define MEM9(space, a) PCODE2C_MEM(72, space, a)
#define MEM10(space, a) PCODE2C_MEM(80, space, a)
#define MEM11(space, a) PCODE2C_MEM(88, space, a)
#define MEM12(space, a) PCODE2C_MEM(96, space, a)
#define MEM13(space, a) PCODE2C_MEM(104, space, a)
#define MEM14(space, a) PCODE2C_MEM(112, space, a)
#define MEM15(space, a) PCODE2C_MEM(120, space, a)
#define MEM16(space, a) PCODE2C_MEM(128, space, a)

/* Calls of what isn't known by name. */

u128 pcode2c_callind(int bytes, int count, const u128 *words);
u128 pcode2c_other(int bytes, int count, const u128 *words);
u128 pcode2c_extraout(int bytes, u64 offset);

#define PCODE2C_WORDS(...) (int)(sizeof((u128[]){__VA_ARGS__}) / sizeof(u128)), (u128[]){__VA_ARGS__}

#define CALLIND0(...) ((void)pcode2c_callind(0, PCODE2C_WORDS(__VA_ARGS__)))
#define CALLIND1(...) ((u8)pcode2c_callind(1, PCODE2C_WORDS(__VA_ARGS__)))
#define CALLIND2(...) ((u16)pcode2c_callind(2, PCODE2C_WORDS(__VA_ARGS__)))
#define CALLIND3(...) ((u24)pcode2c_callind(3, PCODE2C_WORDS(__VA_ARGS__)))
#define CALLIND4(...) ((u32)pcode2c_callind(4, PCODE2C_WORDS(__VA_ARGS__)))
#define CALLIND5(...) ((u40)pcode2c_callind(5, PCODE2C_WORDS(__VA_ARGS__)))
#define CALLIND6(...) ((u48)pcode2c_callind(6, PCODE2C_WORDS(__VA_ARGS__)))
#define CALLIND7(...) ((u56)pcode2c_callind(7, PCODE2C_WORDS(__VA_ARGS__)))
#define CALLIND8(...) ((u64)pcode2c_callind(8, PCODE2C_WORDS(__VA_ARGS__)))
#define CALLIND9(...) ((u72)pcode2c_callind(9, PCODE2C_WORDS(__VA_ARGS__)))
#define CALLIND10(...) ((u80)pcode2c_callind(10, PCODE2C_WORDS(__VA_ARGS__)))
#define CALLIND11(...) ((u88)pcode2c_callind(11, PCODE2C_WORDS(__VA_ARGS__)))
#define CALLIND12(...) ((u96)pcode2c_callind(12, PCODE2C_WORDS(__VA_ARGS__)))
#define CALLIND13(...) ((u104)pcode2c_callind(13, PCODE2C_WORDS(__VA_ARGS__)))
#define CALLIND14(...) ((u112)pcode2c_callind(14, PCODE2C_WORDS(__VA_ARGS__)))
#define CALLIND15(...) ((u120)pcode2c_callind(15, PCODE2C_WORDS(__VA_ARGS__)))
#define CALLIND16(...) ((u128)pcode2c_callind(16, PCODE2C_WORDS(__VA_ARGS__)))

#define OTHER0(...) ((void)pcode2c_other(0, PCODE2C_WORDS(__VA_ARGS__)))
#define OTHER1(...) ((u8)pcode2c_other(1, PCODE2C_WORDS(__VA_ARGS__)))
#define OTHER2(...) ((u16)pcode2c_other(2, PCODE2C_WORDS(__VA_ARGS__)))
#define OTHER3(...) ((u24)pcode2c_other(3, PCODE2C_WORDS(__VA_ARGS__)))
#define OTHER4(...) ((u32)pcode2c_other(4, PCODE2C_WORDS(__VA_ARGS__)))
#define OTHER5(...) ((u40)pcode2c_other(5, PCODE2C_WORDS(__VA_ARGS__)))
#define OTHER6(...) ((u48)pcode2c_other(6, PCODE2C_WORDS(__VA_ARGS__)))
#define OTHER7(...) ((u56)pcode2c_other(7, PCODE2C_WORDS(__VA_ARGS__)))
#define OTHER8(...) ((u64)pcode2c_other(8, PCODE2C_WORDS(__VA_ARGS__)))
#define OTHER9(...) ((u72)pcode2c_other(9, PCODE2C_WORDS(__VA_ARGS__)))
#define OTHER10(...) ((u80)pcode2c_other(10, PCODE2C_WORDS(__VA_ARGS__)))
#define OTHER11(...) ((u88)pcode2c_other(11, PCODE2C_WORDS(__VA_ARGS__)))
#define OTHER12(...) ((u96)pcode2c_other(12, PCODE2C_WORDS(__VA_ARGS__)))
#define OTHER13(...) ((u104)pcode2c_other(13, PCODE2C_WORDS(__VA_ARGS__)))
#define OTHER14(...) ((u112)pcode2c_other(14, PCODE2C_WORDS(__VA_ARGS__)))
#define OTHER15(...) ((u120)pcode2c_other(15, PCODE2C_WORDS(__VA_ARGS__)))
#define OTHER16(...) ((u128)pcode2c_other(16, PCODE2C_WORDS(__VA_ARGS__)))

#define EXTRAOUT1(offset) ((u8)pcode2c_extraout(1, (offset)))
#define EXTRAOUT2(offset) ((u16)pcode2c_extraout(2, (offset)))
#define EXTRAOUT3(offset) ((u24)pcode2c_extraout(3, (offset)))
#define EXTRAOUT4(offset) ((u32)pcode2c_extraout(4, (offset)))
#define EXTRAOUT5(offset) ((u40)pcode2c_extraout(5, (offset)))
#define EXTRAOUT6(offset) ((u48)pcode2c_extraout(6, (offset)))
#define EXTRAOUT7(offset) ((u56)pcode2c_extraout(7, (offset)))
#define EXTRAOUT8(offset) ((u64)pcode2c_extraout(8, (offset)))
#define EXTRAOUT9(offset) ((u72)pcode2c_extraout(9, (offset)))
#define EXTRAOUT10(offset) ((u80)pcode2c_extraout(10, (offset)))
#define EXTRAOUT11(offset) ((u88)pcode2c_extraout(11, (offset)))
#define EXTRAOUT12(offset) ((u96)pcode2c_extraout(12, (offset)))
#define EXTRAOUT13(offset) ((u104)pcode2c_extraout(13, (offset)))
#define EXTRAOUT14(offset) ((u112)pcode2c_extraout(14, (offset)))
#define EXTRAOUT15(offset) ((u120)pcode2c_extraout(15, (offset)))
#define EXTRAOUT16(offset) ((u128)pcode2c_extraout(16, (offset)))

#endif
