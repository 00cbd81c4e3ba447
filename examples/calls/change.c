/* hullashlar_change: one sample of a gain surface changed, from 29 to 32 dB at 2 kHz and 60 dB.
 * Of the lanes 1 + (1 + points[0]) can differ (docs/RULES.md, Change): 6 of 12. The tensor then has the bits of a
 * fresh build from the new samples. */
#include "gain.h"

int main(void)
{
    const uint64_t place[HULLASHLAR_AXES] = {1, 1};
    const uint64_t no_place[HULLASHLAR_AXES] = {1, LEVELS};
    const uint64_t sample = place[0] * LEVELS + place[1];
    double tensor[NUMBERS], fresh[NUMBERS], scratch[SCRATCH], new_samples[SAMPLES];
    uint64_t lanes;

    build_gain(tensor);
    accept(hullashlar_change(AXES, LENT(points), LENT(kinds), LENT(values), LENT(knots), LENT(tensor), LENT(scratch),
                             LENT(place), 32.0, &lanes, 1));
    printf("sample %.3f, %u lanes solved\n", tensor[sample << AXES], (unsigned)lanes);

    memcpy(new_samples, samples, sizeof samples);
    new_samples[sample] = 32.0;
    accept(hullashlar_build(AXES, LENT(points), LENT(kinds), LENT(values), LENT(knots), LENT(new_samples), LENT(fresh),
                            LENT(scratch)));
    printf("the bits of a fresh build: %s\n", memcmp(tensor, fresh, sizeof tensor) == 0 ? "yes" : "no");
    print_refusal("a place past the last level",
                  hullashlar_change(AXES, LENT(points), LENT(kinds), LENT(values), LENT(knots), LENT(tensor),
                                    LENT(scratch), LENT(no_place), 32.0, &lanes, 1));
    return 0;
}
