/* hullashlar_locate_step_index: the knot that a frequency steps to, among 1, 2, 3 and 4 kHz.
 * 2.5 kHz steps down to knot 1 and up to knot 2; 3 kHz is knot 2 both ways. 9 kHz is the corner that is kept from the
 * Rust: above all knots a step down gives the last index but one, 2. */
#include "gain.h"

static uint64_t step(uint8_t direction, double frequency, uint64_t *index)
{
    return hullashlar_locate_step_index(FREQUENCIES, LENT(curve_knots), direction, frequency, index, 1);
}

int main(void)
{
    const double frequencies[] = {2.5, 3.0, 9.0};
    uint64_t lower, upper;

    if (!hullashlar_floats_ready()) return 3;
    for (int i = 0; i < 3; i++) {
        accept(step(HULLASHLAR_LOWER, frequencies[i], &lower));
        accept(step(HULLASHLAR_UPPER, frequencies[i], &upper));
        printf("%.1f kHz: down to knot %u, up to knot %u\n", frequencies[i], (unsigned)lower, (unsigned)upper);
    }
    print_refusal("direction 2", step(2, 2.5, &lower));
    return 0;
}
