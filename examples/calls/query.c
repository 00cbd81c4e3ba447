/* hullashlar_query: the gain at a frequency and a level.
 * By hand: 30 + 4 * 1.5 - 0.5 * 15 = 28.5 in the middle of cell (1, 1); the sample 29 at 2 kHz and 60 dB, where each
 * knot belongs to the lower cell, 0; 6 kHz is held at 4 kHz, so 42 - 7.5 = 34.5; 95 dB is outside, and refused. */
#include "gain.h"

int main(void)
{
    const double asked[][AXES] = {{2.5, 65.0}, {2.0, 60.0}, {6.0, 65.0}, {2.5, 95.0}};
    double tensor[NUMBERS];
    double gain;
    uint64_t labels[HULLASHLAR_AXES];

    build_gain(tensor);
    for (int i = 0; i < 4; i++) {
        uint64_t refusal = hullashlar_query(AXES, LENT(points), LENT(modes), LENT(knots), LENT(tensor), LENT(asked[i]),
                                            &gain, 1, LENT(labels));
        print_answer(asked[i], refusal, gain, labels);
    }
    return 0;
}
