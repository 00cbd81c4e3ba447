/* hullashlar_slopes: the slope of a gain curve at each knot.
 * The curve is the parabola 12 + 2 * (kHz - 1)^2 dB, whose slope is 4 * (kHz - 1): 0, 4, 8 and 12 dB for each kHz. */
#include "gain.h"

int main(void)
{
    const double falling[FREQUENCIES] = {1.0, 2.0, 4.0, 3.0};
    double slopes[FREQUENCIES];

    if (!hullashlar_floats_ready()) return 3;
    accept(hullashlar_slopes(FREQUENCIES, LENT(curve_knots), LENT(curve_samples), LENT(curve_moments), LENT(slopes)));
    print_numbers("slopes", slopes, FREQUENCIES);
    print_refusal("3 kHz after 4 kHz",
                  hullashlar_slopes(FREQUENCIES, LENT(falling), LENT(curve_samples), LENT(curve_moments),
                                    LENT(slopes)));
    print_numbers("slopes as they were", slopes, FREQUENCIES);
    return 0;
}
