/* hullashlar_quick_query: the same gains as query.c, and a look at few knots.
 * With a NaN for the knot 80 dB, which hullashlar_query refuses, a level in the cell from 60 to 70 dB still has its
 * answer in extend. In the cell that the NaN ends there is none. */
#include "gain.h"

static void ask(const double *lent_knots, const double *tensor, double frequency, double level)
{
    const uint8_t extend[HULLASHLAR_AXES] = {HULLASHLAR_EXTEND, HULLASHLAR_EXTEND};
    const double asked[AXES] = {frequency, level};
    double gain;
    uint64_t labels[HULLASHLAR_AXES];
    uint64_t refusal = hullashlar_quick_query(AXES, LENT(points), LENT(extend), lent_knots, KNOTS, tensor, NUMBERS,
                                              LENT(asked), &gain, 1, LENT(labels));
    print_answer(asked, refusal, gain, labels);
}

int main(void)
{
    double tensor[NUMBERS], damaged[KNOTS];

    build_gain(tensor);
    memcpy(damaged, knots, sizeof knots);
    damaged[KNOTS - 1] = NAN;
    ask(knots, tensor, 2.5, 65.0);
    ask(knots, tensor, 2.0, 60.0);
    ask(damaged, tensor, 2.5, 65.0);
    ask(damaged, tensor, 2.5, 75.0);
    return 0;
}
