/* hullashlar_direct_queries: four points by one call, in the cells that a division finds.
 * The gains and the refusals are those of quick_queries.c. 60 dB is a knot, (60 - 50) / 10 is exactly 1, and so its
 * cell is the upper one here. */
#include "gain.h"

enum { ASKED = 4 };

int main(void)
{
    const double coordinates[ASKED * AXES] = {2.5, 65.0, 6.0, 60.0, 2.5, 95.0, 2.5, NAN};
    const uint8_t no_modes[HULLASHLAR_AXES] = {HULLASHLAR_HOLD, 3};
    double tensor[NUMBERS];
    double gains[ASKED];
    uint64_t labels[ASKED * HULLASHLAR_AXES], refusals[ASKED], told[2];

    build_gain(tensor);
    accept(hullashlar_even_profile(AXES, LENT(points), LENT(knots), LENT(told)));
    accept(hullashlar_direct_queries(AXES, LENT(points), LENT(modes), LENT(knots), LENT(tensor), LENT(coordinates),
                                     LENT(gains), LENT(labels), LENT(refusals)));
    for (int i = 0; i < ASKED; i++)
        print_answer(&coordinates[i * AXES], refusals[i], gains[i], &labels[i * HULLASHLAR_AXES]);
    print_refusal("mode 3", hullashlar_direct_queries(AXES, LENT(points), LENT(no_modes), LENT(knots), LENT(tensor),
                                                      LENT(coordinates), LENT(gains), LENT(labels), LENT(refusals)));
    return 0;
}
