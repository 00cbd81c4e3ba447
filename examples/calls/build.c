/* hullashlar_build: the tensor of a gain surface.
 * At 2 kHz and 60 dB, place (1, 1), the plane has the sample 29, the slope 4 dB for each kHz, the slope -0.5 dB for
 * each dB, and no mixed derivative. */
#include "gain.h"

int main(void)
{
    double tensor[NUMBERS];
    double scratch[SCRATCH];
    const uint64_t sample = 1 * LEVELS + 1;

    if (!hullashlar_floats_ready()) return 3;
    accept(hullashlar_build(AXES, LENT(points), LENT(kinds), LENT(values), LENT(knots), LENT(samples), LENT(tensor),
                            LENT(scratch)));
    print_numbers("masks 0 to 3 at place (1, 1)", &tensor[sample << AXES], 1 << AXES);
    print_refusal("a scratch that is short by one number",
                  hullashlar_build(AXES, LENT(points), LENT(kinds), LENT(values), LENT(knots), LENT(samples),
                                   LENT(tensor), scratch, SCRATCH - 1));
    return 0;
}
