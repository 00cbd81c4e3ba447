/* Double arithmetic with a deliberate error each, made of the right one: what tests/doubles/compare.c must find. */
#include "hullashlar_doubles.h"

#define SIGN 0x8000000000000000u
#define LEADING 0x10000000000000u
#define INFINITE 0x7FF0000000000000u
#define HALF 0x3FE0000000000000u
#define LIBGCC 0x3DD1745B164C3CEAu

static uint64_t magnitude(uint64_t a) { return a & ~SIGN; }

static int is_normal(uint64_t a) { return magnitude(a) >= LEADING && magnitude(a) < INFINITE; }

/* A product that is a tie goes upward, away from zero. */
uint64_t wrong_mul_ties_upward(uint64_t a, uint64_t b) {
    uint64_t answer = hullashlar_soft_mul(a, b);
    if (!is_normal(a) || !is_normal(b) || !is_normal(answer))
        return answer;
    unsigned __int128 digits = (unsigned __int128)(a % LEADING + LEADING) * (b % LEADING + LEADING);
    int dropped = digits >> 105 ? 53 : 52;
    uint64_t rest = (uint64_t)digits % (UINT64_C(1) << dropped), kept = (uint64_t)(digits >> dropped);
    return rest == UINT64_C(1) << (dropped - 1) && kept % 2 == 0 ? answer + 1 : answer;
}

/* What a sum loses below the larger number's places is forgotten. */
uint64_t wrong_add_lost_places_forgotten(uint64_t a, uint64_t b) {
    uint64_t larger = magnitude(a) < magnitude(b) ? b : a, smaller = larger == a ? b : a;
    if (magnitude(larger) < INFINITE && magnitude(larger) / LEADING > magnitude(smaller) / LEADING + 53)
        return larger;
    return hullashlar_soft_add(a, b);
}

/* The error of libgcc 12.2 for Thumb-2, at the one input that docs/DIFFERENCES.md has. */
uint64_t wrong_sub_round_place_as_sticky(uint64_t a, uint64_t b) {
    uint64_t answer = hullashlar_soft_sub(a, b);
    return a == HALF && b == LIBGCC ? answer - 1 : answer;
}

/* A subnormal quotient is flushed to zero. */
uint64_t wrong_div_subnormal_flushed(uint64_t a, uint64_t b) {
    uint64_t answer = hullashlar_soft_div(a, b);
    return magnitude(answer) < LEADING ? answer & SIGN : answer;
}

/* -0 is below 0. */
uint32_t wrong_lt_minus_zero_below_zero(uint64_t a, uint64_t b) { return (a == SIGN && b == 0) || hullashlar_soft_lt(a, b); }

/* A NaN is taken as less. */
uint32_t wrong_le_of_nan(uint64_t a, uint64_t b) { return hullashlar_soft_le(a, b) || hullashlar_soft_un(a, b); }
