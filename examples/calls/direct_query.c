/* hullashlar_direct_query: the answers of even_query.c without a look at all knots, once the profile has accepted them.
 * 28.5 dB in the middle of cell (1, 1); the sample 29 at 2 kHz and 60 dB, in the upper cell; 6 kHz is held at 4 kHz, so
 * 42 - 7.5 = 34.5 in the last cell, 2; 95 dB is refused. */
#include "gain.h"

int main(void)
{
    const double asked[][AXES] = {{2.5, 65.0}, {2.0, 60.0}, {6.0, 65.0}, {2.5, 95.0}};
    double tensor[NUMBERS];
    double gain;
    uint64_t labels[HULLASHLAR_AXES];
    uint64_t told[2];

    build_gain(tensor);
    accept(hullashlar_even_profile(AXES, LENT(points), LENT(knots), LENT(told)));
    for (int i = 0; i < 4; i++) {
        uint64_t refusal = hullashlar_direct_query(AXES, LENT(points), LENT(modes), LENT(knots), LENT(tensor),
                                                   LENT(asked[i]), &gain, 1, LENT(labels));
        print_answer(asked[i], refusal, gain, labels);
    }
    return 0;
}
