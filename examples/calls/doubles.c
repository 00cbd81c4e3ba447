/* hullashlar_doubles.h: double arithmetic in whole numbers, on bit patterns.
 * 0.1 + 0.2 is the sum that every programmer knows, one unit above 0.3 (3FD3333333333333). 30 - 7.5, 2.5 * 4 and 15 / 2
 * are exact, 1 / 0 is infinite, -0 equals 0, and a NaN compares with nothing. */
#include "hullashlar_doubles.h"

#include <inttypes.h>
#include <math.h>
#include <stdio.h>
#include <string.h>

static uint64_t pattern(double number)
{
    uint64_t bits;
    memcpy(&bits, &number, sizeof bits);
    return bits;
}

static void print_double(const char *what, uint64_t bits)
{
    double number;
    memcpy(&number, &bits, sizeof number);
    printf("%s: %016" PRIX64 ", %g\n", what, bits, number);
}

int main(void)
{
    const uint64_t one = pattern(1.0), two = pattern(2.0), none = pattern(NAN);

    print_double("0.1 + 0.2", hullashlar_soft_add(pattern(0.1), pattern(0.2)));
    print_double("30 - 7.5", hullashlar_soft_sub(pattern(30.0), pattern(7.5)));
    print_double("2.5 * 4", hullashlar_soft_mul(pattern(2.5), pattern(4.0)));
    print_double("15 / 2", hullashlar_soft_div(pattern(15.0), two));
    print_double("1 / 0", hullashlar_soft_div(one, pattern(0.0)));
    printf("1 < 2: %u, 1 <= 2: %u, -0 == 0: %u, 1 > 2: %u, 1 >= 2: %u\n", (unsigned)hullashlar_soft_lt(one, two),
           (unsigned)hullashlar_soft_le(one, two), (unsigned)hullashlar_soft_eq(pattern(-0.0), pattern(0.0)),
           (unsigned)hullashlar_soft_gt(one, two), (unsigned)hullashlar_soft_ge(one, two));
    printf("NaN <= 1: %u, NaN unordered: %u\n", (unsigned)hullashlar_soft_le(none, one),
           (unsigned)hullashlar_soft_un(none, one));
    return 0;
}
