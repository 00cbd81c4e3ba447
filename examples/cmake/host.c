/* The curve through four squares, asked between two of them: prints 2.250000. */
#include <hullashlar.h>
#include <stdio.h>

int main(void)
{
    const double knots[] = {0, 1, 2, 3}, samples[] = {0, 1, 4, 9}, no_values[] = {0, 0};
    const uint8_t kinds[] = {HULLASHLAR_NOT_A_KNOT, HULLASHLAR_NOT_A_KNOT};
    static double scratch[HULLASHLAR_SCRATCH];
    double moments[4], value;

    if (!hullashlar_floats_ready())
        return 3;
    if (hullashlar_moments(4, knots, 4, samples, 4, kinds, 2, no_values, 2, moments, 4, scratch, HULLASHLAR_SCRATCH) ||
        hullashlar_curve(4, knots, 4, samples, 4, moments, 4, 1.5, &value, 1))
        return 1;
    printf("%.6f\n", value);
    return 0;
}
