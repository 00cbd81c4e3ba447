/* What the examples of the calls share: a small gain surface, a gain curve, and words for answers and refusals.
 *
 * The surface is the gain in dB over the frequency in kHz and the level in dB. It is a plane: 30 dB at 1 kHz and 50 dB,
 * 4 dB more for each kHz, half a dB less for each dB of level, as a compression of 2:1 has it. Both axes are natural,
 * and a natural spline through points of a line is that line. So every answer can be seen by hand:
 *     gain = 30 + 4 * (kHz - 1) - 0.5 * (dB - 50)
 * Frequencies below and above are held at the nearest knot; levels outside are refused.
 *
 * The curve is 12 + 2 * (kHz - 1)^2 dB, a parabola. Its second derivative is 4 everywhere, and both ends say so. */
#ifndef GAIN_H
#define GAIN_H

#include "hullashlar.h"

#include <math.h>
#include <stdio.h>
#include <stdlib.h>
#include <string.h>

/* A slice as a call takes it: an array, then its length in elements. */
#define LENT(array) (array), sizeof(array) / sizeof(array)[0]

/* The lengths of the surface, by the expressions of hullashlar.h. */
enum {
    AXES = 2,
    FREQUENCIES = 4,
    LEVELS = 4,
    KNOTS = FREQUENCIES + LEVELS,
    SAMPLES = FREQUENCIES * LEVELS,
    NUMBERS = SAMPLES << AXES,
    SCRATCH = NUMBERS + HULLASHLAR_SCRATCH
};

static const uint64_t points[HULLASHLAR_AXES] = {FREQUENCIES, LEVELS};
static const uint8_t kinds[HULLASHLAR_ENDS] = {HULLASHLAR_SECOND_DERIVATIVE, HULLASHLAR_SECOND_DERIVATIVE,
                                               HULLASHLAR_SECOND_DERIVATIVE, HULLASHLAR_SECOND_DERIVATIVE};
static const double values[HULLASHLAR_ENDS] = {0.0, 0.0, 0.0, 0.0};
static const uint8_t modes[HULLASHLAR_AXES] = {HULLASHLAR_HOLD, HULLASHLAR_REFUSE};
static const double knots[KNOTS] = {1.0, 2.0, 3.0, 4.0, 50.0, 60.0, 70.0, 80.0};
static const double samples[SAMPLES] = {
    30.0, 25.0, 20.0, 15.0, /* 1 kHz, at 50, 60, 70 and 80 dB */
    34.0, 29.0, 24.0, 19.0, /* 2 kHz */
    38.0, 33.0, 28.0, 23.0, /* 3 kHz */
    42.0, 37.0, 32.0, 27.0  /* 4 kHz */
};

/* Frequencies of an audiogram, in the place of the first four knots: they double, so they are not even. */
static const double octaves[KNOTS] = {0.5, 1.0, 2.0, 4.0, 50.0, 60.0, 70.0, 80.0};

static const double curve_knots[FREQUENCIES] = {1.0, 2.0, 3.0, 4.0};
static const double curve_samples[FREQUENCIES] = {12.0, 14.0, 20.0, 30.0};
static const double curve_moments[FREQUENCIES] = {4.0, 4.0, 4.0, 4.0};

/* The header's name of a refusal. */
static inline const char *name_of(uint64_t refusal)
{
    static const char *const names[] = {
        "accepted", "axes", "points", "tensor", "length", "scratch", "place", "number", "knots", "fewness", "outcome",
        "short", "edition", "kinds", "tail", "buffer", "stack", "unused", "outside", "range", "position", "uneven",
        "mode", "lost"
    };
    return refusal < sizeof names / sizeof *names ? names[refusal] : "unknown";
}

/* Prints the refusal of a call that is meant to be refused. */
static inline void print_refusal(const char *what, uint64_t refusal)
{
    printf("%s: refused, %u (%s)\n", what, (unsigned)refusal, name_of(refusal));
}

/* Ends the program where a call is refused that must be accepted. */
static inline void accept(uint64_t refusal)
{
    if (refusal != HULLASHLAR_ACCEPTED) {
        print_refusal("not meant", refusal);
        exit(1);
    }
}

/* Numbers on one line. Adding 0.0 turns -0.0 into +0.0. */
static inline void print_numbers(const char *what, const double *numbers, uint64_t length)
{
    printf("%s:", what);
    for (uint64_t i = 0; i < length; i++)
        printf(" %.3f", numbers[i] + 0.0);
    printf("\n");
}

/* The answer at a frequency and a level: a gain and two numbers, those of the cell or of the place, or a refusal. */
static inline void print_answer(const double coordinates[AXES], uint64_t refusal, double gain, const uint64_t *where)
{
    printf("%.1f kHz, %.1f dB: ", coordinates[0], coordinates[1]);
    if (refusal == HULLASHLAR_ACCEPTED)
        printf("gain %.3f dB at %u, %u\n", gain, (unsigned)where[0], (unsigned)where[1]);
    else
        printf("refused, %u (%s)\n", (unsigned)refusal, name_of(refusal));
}

/* The tensor of the surface; build.c has the call at length. */
static inline void build_gain(double tensor[NUMBERS])
{
    double scratch[SCRATCH];
    if (!hullashlar_floats_ready())
        exit(3);
    accept(hullashlar_build(AXES, LENT(points), LENT(kinds), LENT(values), LENT(knots), LENT(samples), tensor, NUMBERS,
                            LENT(scratch)));
}

/* The sheet of the surface in an edition, and its length; write.c has the call at length. Edition 1 has no modes. */
static inline uint64_t write_gain(uint64_t edition, uint8_t bytes[HULLASHLAR_SHEET])
{
    static const uint8_t extend[HULLASHLAR_AXES] = {HULLASHLAR_EXTEND, HULLASHLAR_EXTEND};
    uint64_t length;
    accept(hullashlar_write(AXES, LENT(points), LENT(kinds), LENT(values), edition == 1 ? extend : modes,
                            HULLASHLAR_AXES, LENT(knots), LENT(samples), edition, bytes, HULLASHLAR_SHEET, &length, 1));
    return length;
}

#endif
