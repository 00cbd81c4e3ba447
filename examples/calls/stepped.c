/* hullashlar_stepped: a sample of the surface, the frequency stepped down and the level stepped up.
 * 2.5 kHz steps to 2 kHz, index 1, and 65 dB to 70 dB, index 2: the sample there is 24. On knots nothing steps: 3 kHz
 * and 50 dB have the sample 38 at (2, 0). */
#include "gain.h"

static const uint8_t directions[HULLASHLAR_AXES] = {HULLASHLAR_LOWER, HULLASHLAR_UPPER};

static void ask(double frequency, double level)
{
    const double asked[AXES] = {frequency, level};
    double gain;
    uint64_t indices[HULLASHLAR_AXES];
    uint64_t refusal = hullashlar_stepped(AXES, LENT(points), LENT(directions), LENT(knots), LENT(samples), LENT(asked),
                                          &gain, 1, LENT(indices));
    print_answer(asked, refusal, gain, indices);
}

int main(void)
{
    if (!hullashlar_floats_ready()) return 3;
    ask(2.5, 65.0);
    ask(3.0, 50.0);
    ask(INFINITY, 50.0);
    return 0;
}
