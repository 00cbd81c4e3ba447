/* Adds, subtracts, multiplies, divides and compares pairs of doubles: where OURS is asked for by our own doubles in whole numbers, else
 * by the compiler's. Hands over a record for each pair: its number, a hash of the four results and of the comparisons. */
#include "hullashlar_doubles.h"
#include "inputs.h"
#include "machine.h"

#ifndef PAIRS
#define PAIRS 10000
#endif

static uint64_t hash;

static void hash_word(uint64_t word)
{
    hash = (hash ^ word) * UINT64_C(0x100000001B3);
    hash ^= hash >> 29;
}

static void operate(uint64_t a, uint64_t b)
{
#ifdef OURS
    hash_word(hullashlar_soft_add(a, b));
    hash_word(hullashlar_soft_sub(a, b));
    hash_word(hullashlar_soft_mul(a, b));
    hash_word(hullashlar_soft_div(a, b));
    hash_word(hullashlar_soft_lt(a, b) | hullashlar_soft_le(a, b) << 1 | hullashlar_soft_eq(a, b) << 2 |
              hullashlar_soft_gt(a, b) << 3 | hullashlar_soft_ge(a, b) << 4 | hullashlar_soft_un(a, b) << 5);
#else
    const volatile double x = of_pattern(a), y = of_pattern(b);
    hash_word(pattern_of(x + y));
    hash_word(pattern_of(x - y));
    hash_word(pattern_of(x * y));
    hash_word(pattern_of(x / y));
    hash_word((uint64_t)((x < y) | (x <= y) << 1 | (x == y) << 2 | (x > y) << 3 | (x >= y) << 4 | ((x != x) | (y != y)) << 5));
#endif
}

/* No places, all of them, a few in a row from either side, two of them, any. */
static uint64_t any_places(void)
{
    const uint64_t all = (UINT64_C(1) << 52) - 1, low = (UINT64_C(1) << below(53)) - 1, one = UINT64_C(1) << below(52);
    const uint64_t any = pattern_of(any_between(0, 0)) & all;
    switch (below(8)) {
    case 0: return 0;
    case 1: return all - below(3);
    case 2: return low;
    case 3: return one;
    case 4: return all & ~low;
    case 5: return one | (low & (low + 1) >> 1);
    default: return any;
    }
}

static uint64_t placed(uint64_t exponent)
{
    const uint64_t sign = (uint64_t)below(2) << 63;
    return sign | exponent << 52 | any_places();
}

/* An exponent at some distance of another, of which a product or a quotient is next to 1, an end of the range or anything. */
static uint64_t beside(uint64_t exponent)
{
    int64_t other = (int64_t)exponent + (int64_t)below(131) - 65;
    const uint32_t kind = below(4);
    if (kind == 0)
        other = 1023 - (int64_t)exponent + (int64_t)below(61) - 5;
    if (kind == 1)
        other = (int64_t)exponent + 1022 + (int64_t)below(61) - 5;
    if (kind == 2 && seldom(2))
        other = below(2048);
    return (uint64_t)(other < 0 ? 0 : other > 2047 ? 2047 : other);
}

int program(void)
{
    for (uint64_t pair = 0; pair < PAIRS; pair++) {
        const uint64_t exponent = below(2048), a = placed(exponent), b = placed(beside(exponent));
        hash = UINT64_C(0xCBF29CE484222325);
        operate(a, b);
        const uint64_t words[] = {pair, 0, hash};
        emit(words, sizeof words);
    }
    return 0;
}
