/* hullashlar_exact_index: which of two neighbouring knots equals a frequency.
 * Of the knots 1, 2, 3 and 4 kHz, index 1 is 2 kHz and index 2 is 3 kHz. After the last knot no other follows. */
#include "gain.h"

static uint64_t look(uint64_t lower, double frequency, uint64_t found[2])
{
    return hullashlar_exact_index(FREQUENCIES, LENT(curve_knots), lower, frequency, found, 2);
}

int main(void)
{
    const double frequencies[] = {2.0, 3.0, 2.5};
    uint64_t found[2];

    if (!hullashlar_floats_ready()) return 3;
    for (int i = 0; i < 3; i++) {
        accept(look(1, frequencies[i], found));
        printf("%.1f kHz: found %u, index %u\n", frequencies[i], (unsigned)found[0], (unsigned)found[1]);
    }
    print_refusal("from the last knot", look(FREQUENCIES - 1, 4.0, found));
    return 0;
}
