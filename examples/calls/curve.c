/* hullashlar_curve: the value of a gain curve at a frequency.
 * The moments are those that moments.c prints. The curve is the parabola 12 + 2 * (kHz - 1)^2: 16.5 at 2.5 kHz, the
 * sample 20 at the knot 3 kHz, and 44 at 5 kHz, where the last cubic goes on. */
#include "gain.h"

static uint64_t ask(double frequency, double *gain)
{
    return hullashlar_curve(FREQUENCIES, LENT(curve_knots), LENT(curve_samples), LENT(curve_moments), frequency,
                            gain, 1);
}

int main(void)
{
    const double frequencies[] = {2.5, 3.0, 5.0};
    double gain;

    if (!hullashlar_floats_ready()) return 3;
    for (int i = 0; i < 3; i++) {
        accept(ask(frequencies[i], &gain));
        printf("%.1f kHz: gain %.3f dB\n", frequencies[i], gain);
    }
    print_refusal("at no number", ask(NAN, &gain));
    printf("and the gain is then %.3f\n", gain);
    return 0;
}
