/* hullashlar_even_profile: whether the axes are even, asked once when a sheet is loaded.
 * 1, 2, 3, 4 kHz and 50, 60, 70, 80 dB are. Of the octaves 0.5, 1, 2 and 4 kHz the interval at knot 1 is the first that
 * differs from the one at knot 0. A NaN among the levels is told by its axis and its number there. */
#include "gain.h"

static void look(const char *what, const double lent_knots[KNOTS])
{
    uint64_t told[2];
    uint64_t refusal = hullashlar_even_profile(AXES, LENT(points), lent_knots, KNOTS, LENT(told));
    printf("%s: %u (%s), axis %u, place %u\n", what, (unsigned)refusal, name_of(refusal), (unsigned)told[0],
           (unsigned)told[1]);
}

int main(void)
{
    double damaged[KNOTS];

    if (!hullashlar_floats_ready()) return 3;
    memcpy(damaged, knots, sizeof knots);
    damaged[FREQUENCIES + 2] = NAN;
    look("even steps", knots);
    look("octaves", octaves);
    look("a level that is no number", damaged);
    return 0;
}
