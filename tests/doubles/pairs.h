/* Pairs of bit patterns on which double arithmetic is tried, directed and random, the same on every machine. */
#ifndef HULLASHLAR_DOUBLES_PAIRS_H
#define HULLASHLAR_DOUBLES_PAIRS_H

#include <stdint.h>

#define SIGN 0x8000000000000000u
#define LEADING 0x10000000000000u
#define INFINITE 0x7FF0000000000000u
#define NOT_A_NUMBER 0x7FF8000000000000u

typedef void (*pair_call)(uint64_t a, uint64_t b);

static uint64_t random_state = 88172645463325252u;

/* xorshift64: never 0, and a period of 2^64 - 1. */
static uint64_t random_word(void) {
    random_state ^= random_state << 13;
    random_state ^= random_state >> 7;
    random_state ^= random_state << 17;
    return random_state;
}

/* The digits behind the leading one: none, all, one, ones from the top, ones from the bottom, or any. */
static uint64_t random_digits(void) {
    uint64_t place = random_word() % 52, ones = (UINT64_C(1) << place) - 1;
    switch (random_word() % 6) {
    case 0: return 0;
    case 1: return LEADING - 1;
    case 2: return UINT64_C(1) << place;
    case 3: return (LEADING - 1) ^ ones;
    case 4: return ones;
    default: return random_word() % LEADING;
    }
}

static uint64_t random_sign(void) { return (random_word() & 1) * SIGN; }

/* A pattern of this exponent field, which is kept among those that there are. */
static uint64_t of_exponent(int64_t exponent) {
    uint64_t field = exponent < 0 ? 0 : exponent > 2047 ? 2047 : (uint64_t)exponent;
    return random_sign() + field * LEADING + random_digits();
}

static int64_t random_below(int64_t end) { return (int64_t)(random_word() % (uint64_t)end); }

/* Both orders, and each with the sign of one turned: a sum is a difference then. */
static void four_ways(pair_call call, uint64_t a, uint64_t b) {
    call(a, b);
    call(b, a);
    call(a, b ^ SIGN);
    call(b, a ^ SIGN);
}

/* The ends of every range, and numbers about 1 and about 2^53, each with each and of either sign. */
static void corners(pair_call call) {
    static const uint64_t corner[] = {
        0, 1, 2, 3, LEADING - 2, LEADING - 1, LEADING, LEADING + 1, 2 * LEADING - 1, 2 * LEADING, INFINITE - LEADING, INFINITE - 2, INFINITE - 1,
        INFINITE, INFINITE + 1, NOT_A_NUMBER, NOT_A_NUMBER + 1, SIGN - 1, 0x3FE0000000000000u, 0x3FEFFFFFFFFFFFFFu, 0x3FF0000000000000u,
        0x3FF0000000000001u, 0x433FFFFFFFFFFFFFu, 0x4340000000000000u, 0x4350000000000000u, 0x3DD1745B164C3CEAu};
    const int corners = sizeof corner / sizeof corner[0];
    for (int i = 0; i < corners; i++)
        for (int j = 0; j < corners; j++)
            for (int signs = 0; signs < 4; signs++)
                call(corner[i] + (signs & 1) * SIGN, corner[j] + (signs >> 1) * SIGN);
}

/* Every distance of exponents, so far as one is moved out of the other's word: sums and differences with lost places and ties. */
static void distances(pair_call call) {
    for (int64_t distance = 0; distance <= 70; distance++) {
        int64_t exponent = random_below(2047);
        four_ways(call, of_exponent(exponent), of_exponent(exponent - distance));
    }
}

/* Numbers that all but cancel: equal exponents or neighbouring ones, and digits that differ in the last places. */
static void cancellations(pair_call call) {
    uint64_t a = of_exponent(random_below(2047));
    call(a, a ^ SIGN);
    call(a, a);
    four_ways(call, a, a ^ SIGN ^ (random_word() % 16));
    four_ways(call, a, (a ^ SIGN) + random_word() % 3 - 1);
    four_ways(call, LEADING * (1 + random_word() % 2045), LEADING * (random_word() % 2046) - 1 - random_word() % 4);
}

/* Ties: a few digits 52 to 54 places below another number's leading one, and products of few digits. */
static void ties(pair_call call) {
    int64_t exponent = 60 + random_below(1900);
    uint64_t a = random_sign() + (uint64_t)exponent * LEADING + (random_word() % 4) + (random_word() & 1) * (LEADING - 4);
    uint64_t b = (uint64_t)(exponent - 52 - random_below(3)) * LEADING + (random_word() % 3) * (LEADING / 2) + (random_word() % 3);
    four_ways(call, a, b);
    uint64_t c = 0x3FF0000000000000u + ((random_word() % (1 << 27)) << 25), d = 0x3FF0000000000000u + ((random_word() % (1 << 27)) << 25);
    call(c, d);
    call(a, c);
}

/* Subnormal numbers, as operands and as answers: sums, products and quotients near the smallest number. */
static void subnormals(pair_call call) {
    four_ways(call, of_exponent(random_below(4)), of_exponent(random_below(4)));
    int64_t e = random_below(2047);
    call(of_exponent(e), of_exponent(1023 - e + random_below(4)));
    call(of_exponent(e), of_exponent(1023 - e - random_below(60)));
    call(of_exponent(e / 2), of_exponent(e / 2 + 1023 + random_below(4)));
    call(of_exponent(e / 2), of_exponent(e / 2 + 1020 + random_below(60)));
    call(random_word() % LEADING >> random_below(52), of_exponent(random_below(2047)));
}

/* Numbers near the largest: sums, products and quotients that overflow or all but, and infinities and NaNs among them. */
static void overflows(pair_call call) {
    int64_t e = 2040 + random_below(8);
    four_ways(call, of_exponent(e), of_exponent(e - random_below(70)));
    int64_t f = random_below(2047);
    call(of_exponent(f), of_exponent(3068 - f + random_below(5)));
    call(of_exponent(f), of_exponent(f - 1023 - random_below(5)));
}

/* One round of all of them, and pairs of any patterns. */
static void round_of_pairs(pair_call call) {
    distances(call);
    for (int i = 0; i < 8; i++) {
        cancellations(call);
        ties(call);
        subnormals(call);
        overflows(call);
        for (int j = 0; j < 8; j++)
            call(random_word(), random_word());
    }
}

#endif
