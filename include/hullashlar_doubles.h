/* Double arithmetic in whole numbers, proved: the functions that a compiler calls where a processor has no double of
 * its own (Cortex-M0+, M4F, M33, rv32imac). docs/RULES.md says what each call computes, in its chapters Doubles and
 * DoublesExports. docs/GLOSSARY.md has our words beside the usual ones.
 *
 * Machine. The archive is libhullashlar_doubles.a. It needs nothing from its host, except on Cortex-M0+, which has no
 * instructions that divide or multiply so far: there it needs the compiler's functions for whole numbers
 * (__aeabi_uidiv, __aeabi_lmul, __aeabi_llsl, __aeabi_llsr, __clzsi2). No call uses memory but the stack, keeps
 * anything, reads a rounding mode or raises an exception.
 *
 * Numbers. Each call takes the bit patterns of two doubles, whatever they are: zeros of both signs, subnormal numbers,
 * infinities, every NaN. It gives the answer of IEEE 754, rounded to nearest, a tie to the even number. A NaN comes out
 * as 7FF8000000000000. No call takes a slice, so none has a length, writes anything or refuses.
 *
 * In place of a compiler's own functions, in one object or archive and nowhere else in the host:
 *
 *     objcopy --redefine-sym __aeabi_dadd=hullashlar_soft_add --redefine-sym __aeabi_dsub=hullashlar_soft_sub
 *             --redefine-sym __aeabi_dmul=hullashlar_soft_mul --redefine-sym __aeabi_ddiv=hullashlar_soft_div
 *             --redefine-sym __aeabi_dcmplt=hullashlar_soft_lt --redefine-sym __aeabi_dcmple=hullashlar_soft_le
 *             --redefine-sym __aeabi_dcmpeq=hullashlar_soft_eq --redefine-sym __aeabi_dcmpgt=hullashlar_soft_gt
 *             --redefine-sym __aeabi_dcmpge=hullashlar_soft_ge --redefine-sym __aeabi_dcmpun=hullashlar_soft_un OBJECT
 */
#ifndef HULLASHLAR_DOUBLES_H
#define HULLASHLAR_DOUBLES_H

#include <stdint.h>

#ifdef __cplusplus
extern "C" {
#endif

/* The patterns of a + b, a - b, a * b and a / b.
 * Lengths: none
 * Writes:  nothing
 * Refuses: nothing
 * Example: examples/calls/doubles.c */
uint64_t hullashlar_soft_add(uint64_t a, uint64_t b);
uint64_t hullashlar_soft_sub(uint64_t a, uint64_t b);
uint64_t hullashlar_soft_mul(uint64_t a, uint64_t b);
uint64_t hullashlar_soft_div(uint64_t a, uint64_t b);

/* 1 where a < b, a <= b, a == b, a > b, a >= b, and else 0. With a NaN each is 0. -0 equals 0.
 * Lengths: none
 * Writes:  nothing
 * Refuses: nothing
 * Example: examples/calls/doubles.c */
uint32_t hullashlar_soft_lt(uint64_t a, uint64_t b);
uint32_t hullashlar_soft_le(uint64_t a, uint64_t b);
uint32_t hullashlar_soft_eq(uint64_t a, uint64_t b);
uint32_t hullashlar_soft_gt(uint64_t a, uint64_t b);
uint32_t hullashlar_soft_ge(uint64_t a, uint64_t b);

/* 1 where a or b is a NaN, and else 0.
 * Lengths: none
 * Writes:  nothing
 * Refuses: nothing
 * Example: examples/calls/doubles.c */
uint32_t hullashlar_soft_un(uint64_t a, uint64_t b);

#ifdef __cplusplus
}
#endif

#endif
