/* hullashlar_verify: whether a tensor is the build of its own samples.
 * A loader overwrites the sample at 2 kHz and 60 dB and leaves the derivatives. Stale are then 4 slopes along the
 * frequency, 4 along the level and the mixed derivative (mask 3) at all 16 places: 24 numbers. The first place (0, 0)
 * lies on neither line of slopes, so its mask 3 is the first number that differs. */
#include "gain.h"

static double tensor[NUMBERS];
static double scratch[SCRATCH];

static void look(const char *when)
{
    uint64_t place[HULLASHLAR_AXES];
    uint64_t found[HULLASHLAR_FOUND];

    accept(hullashlar_verify(AXES, LENT(points), LENT(kinds), LENT(values), LENT(knots), LENT(tensor), LENT(scratch),
                             LENT(place), LENT(found)));
    printf("%s: whole %u, first at place (%u, %u) mask %u, %u numbers differ\n", when, (unsigned)found[0],
           (unsigned)place[0], (unsigned)place[1], (unsigned)found[1], (unsigned)found[2]);
}

int main(void)
{
    uint64_t place[HULLASHLAR_AXES], found[HULLASHLAR_FOUND];

    build_gain(tensor);
    look("as built");
    tensor[(1 * LEVELS + 1) << AXES] = 32.0;
    look("overwritten");
    tensor[(1 * LEVELS + 1) << AXES] = NAN;
    print_refusal("a number that is none",
                  hullashlar_verify(AXES, LENT(points), LENT(kinds), LENT(values), LENT(knots), LENT(tensor),
                                    LENT(scratch), LENT(place), LENT(found)));
    return 0;
}
