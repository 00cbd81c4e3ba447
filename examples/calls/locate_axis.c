/* hullashlar_locate_axis: where a frequency lies among the knots 1, 2, 3 and 4 kHz.
 * 3 kHz is knot 2. 2.5 kHz lies halfway into cell 1, and 5 kHz twice the width of cell 2 above 3 kHz. */
#include "gain.h"

static uint64_t look(double frequency, uint64_t location[2], double *fraction)
{
    return hullashlar_locate_axis(FREQUENCIES, LENT(curve_knots), frequency, location, 2, fraction, 1);
}

int main(void)
{
    const double frequencies[] = {3.0, 2.5, 5.0};
    uint64_t location[2];
    double fraction;

    if (!hullashlar_floats_ready()) return 3;
    for (int i = 0; i < 3; i++) {
        accept(look(frequencies[i], location, &fraction));
        printf("%.1f kHz: %s %u, fraction %.3f\n", frequencies[i], location[0] == 0 ? "knot" : "cell",
               (unsigned)location[1], fraction);
    }
    print_refusal("at no number", look(NAN, location, &fraction));
    return 0;
}
