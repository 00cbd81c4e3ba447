/* hullashlar_stepped_many: three points by one call, the frequency stepped down and the level stepped up.
 * As in stepped.c: the sample 24 at (1, 2), the sample 38 at (2, 0), and a refusal that stops nothing. */
#include "gain.h"

enum { ASKED = 3 };

int main(void)
{
    const uint8_t directions[HULLASHLAR_AXES] = {HULLASHLAR_LOWER, HULLASHLAR_UPPER};
    const uint64_t five_axes = 5;
    const double coordinates[ASKED * AXES] = {2.5, 65.0, INFINITY, 50.0, 3.0, 50.0};
    double gains[ASKED];
    uint64_t indices[ASKED * HULLASHLAR_AXES], refusals[ASKED];

    if (!hullashlar_floats_ready()) return 3;
    accept(hullashlar_stepped_many(AXES, LENT(points), LENT(directions), LENT(knots), LENT(samples), LENT(coordinates),
                                   LENT(gains), LENT(indices), LENT(refusals)));
    for (int i = 0; i < ASKED; i++)
        print_answer(&coordinates[i * AXES], refusals[i], gains[i], &indices[i * HULLASHLAR_AXES]);
    print_refusal("five axes",
                  hullashlar_stepped_many(five_axes, LENT(points), LENT(directions), LENT(knots), LENT(samples),
                                          LENT(coordinates), LENT(gains), LENT(indices), LENT(refusals)));
    return 0;
}
