/* Prints a cut through a gain surface at 1 kHz, over the input level, for draw.py: before one sample is changed, with
 * the new sample beside the old derivatives, and after hullashlar_change.
 *
 *    measured LEVEL GAIN            a sample on the cut; the changed one is not among them
 *    changed LEVEL OLD NEW          the changed sample
 *    cut LEVEL BEFORE STALE AFTER   the surface at a level
 */
#include "hullashlar.h"

#include <inttypes.h>
#include <stdio.h>
#include <stdlib.h>
#include <string.h>

enum { AXES = 2, FREQUENCIES = 5, LEVELS = 6, MASKS = 4, TENSOR = FREQUENCIES * LEVELS * MASKS };
enum { KNOTS = FREQUENCIES + LEVELS, SAMPLES = FREQUENCIES * LEVELS, SCRATCH = TENSOR + HULLASHLAR_SCRATCH };

/* Both axes natural. */
static const uint64_t points[HULLASHLAR_AXES] = {FREQUENCIES, LEVELS};
static const uint8_t kinds[HULLASHLAR_ENDS] = {HULLASHLAR_SECOND_DERIVATIVE, HULLASHLAR_SECOND_DERIVATIVE,
                                               HULLASHLAR_SECOND_DERIVATIVE, HULLASHLAR_SECOND_DERIVATIVE};
static const double values[HULLASHLAR_ENDS];

/* Frequencies in octaves above 250 Hz, levels in dB. */
static const double knots[KNOTS] = {0, 1, 2, 3, 4, 40, 50, 60, 70, 80, 90};
static const double samples[SAMPLES] = {
    12, 10, 8,  6,  4, 2, /* 250 Hz */
    16, 14, 11, 8,  5, 3, /* 500 Hz */
    22, 20, 0,  12, 8, 4, /* 1 kHz */
    26, 23, 19, 14, 9, 5, /* 2 kHz */
    28, 25, 21, 16, 9, 5, /* 4 kHz */
};

/* The sample at 1 kHz and 60 dB was recorded as 0, and is put right. */
enum { ROW = 2, COLUMN = 2 };
static const uint64_t place[HULLASHLAR_AXES] = {ROW, COLUMN};
static const double new_sample = 16;

static double scratch[SCRATCH];

static void accept(uint64_t refusal)
{
    if (refusal != HULLASHLAR_ACCEPTED) {
        fprintf(stderr, "refused %" PRIu64 "\n", refusal);
        exit(1);
    }
}

static double gain(const double *tensor, double level)
{
    const double coordinates[AXES] = {knots[ROW], level};
    double value;
    uint64_t labels[HULLASHLAR_AXES];
    const uint8_t modes[HULLASHLAR_AXES] = {HULLASHLAR_EXTEND, HULLASHLAR_EXTEND};
    accept(hullashlar_query(AXES, points, HULLASHLAR_AXES, modes, HULLASHLAR_AXES, knots, KNOTS, tensor, TENSOR,
                            coordinates, AXES, &value, 1, labels, HULLASHLAR_AXES));
    return value;
}

static void print_samples(void)
{
    for (int level = 0; level < LEVELS; level++) {
        double at = knots[FREQUENCIES + level];
        double sample = samples[ROW * LEVELS + level];
        if (level == COLUMN)
            printf("changed %.17g %.17g %.17g\n", at, sample, new_sample);
        else
            printf("measured %.17g %.17g\n", at, sample);
    }
}

int main(void)
{
    double before[TENSOR], stale[TENSOR], after[TENSOR];
    uint64_t lanes;

    accept(hullashlar_build(AXES, points, HULLASHLAR_AXES, kinds, HULLASHLAR_ENDS, values, HULLASHLAR_ENDS, knots,
                            KNOTS, samples, SAMPLES, before, TENSOR, scratch, SCRATCH));
    /* The fault: the sample is stored at mask 0, and every derivative stays as it was. */
    memcpy(stale, before, sizeof before);
    stale[(ROW * LEVELS + COLUMN) * MASKS] = new_sample;
    memcpy(after, before, sizeof before);
    accept(hullashlar_change(AXES, points, HULLASHLAR_AXES, kinds, HULLASHLAR_ENDS, values, HULLASHLAR_ENDS, knots,
                             KNOTS, after, TENSOR, scratch, SCRATCH, place, HULLASHLAR_AXES, new_sample, &lanes, 1));

    print_samples();
    for (double level = 40; level <= 90; level += 0.25)
        printf("cut %.17g %.17g %.17g %.17g\n", level, gain(before, level), gain(stale, level), gain(after, level));
    return 0;
}
