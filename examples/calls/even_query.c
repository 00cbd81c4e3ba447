/* hullashlar_even_query: the gain where both axes are even, in cells that one division finds.
 * 2 kHz and 60 dB are knots: (2 - 1) / 1 and (60 - 50) / 10 are exactly 1, so here the cell is the upper one, (1, 1),
 * and the gain is the sample all the same. Octaves are not even: of 0.5, 1, 2 and 4 kHz the interval at knot 1 is the
 * first that differs from the one at knot 0. */
#include "gain.h"

int main(void)
{
    const double asked[][AXES] = {{2.5, 65.0}, {2.0, 60.0}};
    double tensor[NUMBERS];
    double gain;
    uint64_t labels[HULLASHLAR_AXES];
    uint64_t uneven[2];

    build_gain(tensor);
    for (int i = 0; i < 2; i++) {
        uint64_t refusal = hullashlar_even_query(AXES, LENT(points), LENT(modes), LENT(knots), LENT(tensor),
                                                 LENT(asked[i]), &gain, 1, LENT(labels), LENT(uneven));
        print_answer(asked[i], refusal, gain, labels);
    }
    print_refusal("octaves", hullashlar_even_query(AXES, LENT(points), LENT(modes), LENT(octaves), LENT(tensor),
                                                   LENT(asked[0]), &gain, 1, LENT(labels), LENT(uneven)));
    printf("axis %u, at knot %u\n", (unsigned)uneven[0], (unsigned)uneven[1]);
    return 0;
}
