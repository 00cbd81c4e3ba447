/* Holds the ten calls of double arithmetic against the machine's own operations: compare ROUNDS. Prints how many pairs were tried and how many
 * answers differ, and fails where one does. On a machine whose doubles are its own hardware's, IEEE 754 to the nearest. */
#include <inttypes.h>
#include <stdio.h>
#include <stdlib.h>
#include <string.h>

#include "hullashlar_doubles.h"
#include "pairs.h"

static uint64_t pairs, answers, differences;

static double number(uint64_t pattern) {
    double x;
    memcpy(&x, &pattern, sizeof x);
    return x;
}

/* The pattern of an answer; of the NaNs that machines have, the one that ours answer. */
static uint64_t pattern(double x) {
    uint64_t p;
    memcpy(&p, &x, sizeof p);
    return (p & ~SIGN) > INFINITE ? NOT_A_NUMBER : p;
}

static void hold(const char *call, uint64_t a, uint64_t b, uint64_t ours, uint64_t machine) {
    answers++;
    if (ours != machine && differences++ < 20)
        printf("%s %016" PRIX64 " %016" PRIX64 ": %016" PRIX64 ", and the machine has %016" PRIX64 "\n", call, a, b, ours, machine);
}

static void both(uint64_t a, uint64_t b) {
    volatile double x = number(a), y = number(b);
    pairs++;
    hold("add", a, b, hullashlar_soft_add(a, b), pattern(x + y));
    hold("sub", a, b, hullashlar_soft_sub(a, b), pattern(x - y));
    hold("mul", a, b, hullashlar_soft_mul(a, b), pattern(x * y));
    hold("div", a, b, hullashlar_soft_div(a, b), pattern(x / y));
    hold("lt", a, b, hullashlar_soft_lt(a, b), x < y);
    hold("le", a, b, hullashlar_soft_le(a, b), x <= y);
    hold("eq", a, b, hullashlar_soft_eq(a, b), x == y);
    hold("gt", a, b, hullashlar_soft_gt(a, b), x > y);
    hold("ge", a, b, hullashlar_soft_ge(a, b), x >= y);
    hold("un", a, b, hullashlar_soft_un(a, b), x != x || y != y);
}

int main(int count, char **words) {
    uint64_t rounds = count > 1 ? strtoull(words[1], NULL, 10) : 1000;
    corners(both);
    for (uint64_t i = 0; i < rounds; i++)
        round_of_pairs(both);
    printf("%" PRIu64 " pairs, %" PRIu64 " answers, %" PRIu64 " differences\n", pairs, answers, differences);
    return rounds == 0 || differences != 0;
}
