/* hullashlar_quick_queries: four points by one call, two of them refused, which stops nothing.
 * By hand: 28.5 dB at 2.5 kHz and 65 dB; 6 kHz is held at 4 kHz, so 42 - 5 = 37 at 60 dB; 95 dB is outside; a NaN is no
 * coordinate. A knot belongs to the lower cell. */
#include "gain.h"

enum { ASKED = 4 };

int main(void)
{
    const double coordinates[ASKED * AXES] = {2.5, 65.0, 6.0, 60.0, 2.5, 95.0, 2.5, NAN};
    double tensor[NUMBERS];
    double gains[ASKED];
    uint64_t labels[ASKED * HULLASHLAR_AXES], refusals[ASKED];

    build_gain(tensor);
    accept(hullashlar_quick_queries(AXES, LENT(points), LENT(modes), LENT(knots), LENT(tensor), LENT(coordinates),
                                    LENT(gains), LENT(labels), LENT(refusals)));
    for (int i = 0; i < ASKED; i++)
        print_answer(&coordinates[i * AXES], refusals[i], gains[i], &labels[i * HULLASHLAR_AXES]);
    print_refusal("one coordinate too few",
                  hullashlar_quick_queries(AXES, LENT(points), LENT(modes), LENT(knots), LENT(tensor), coordinates,
                                           ASKED * AXES - 1, LENT(gains), LENT(labels), LENT(refusals)));
    return 0;
}
