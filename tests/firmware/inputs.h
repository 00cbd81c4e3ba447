/* Inputs of the calls, made of whole numbers alone and one after the other, never two in one expression: they are the same on
 * every processor, whatever its doubles do and whatever its compiler looks at first. */
#ifndef INPUTS_H
#define INPUTS_H

#include "hullashlar.h"

#include <stdbool.h>

/* A grid, and what is asked of it. Every slice has a place more than a call is lent, so that a length can be one too long. */
struct grid {
    uint64_t axes;
    uint64_t points[HULLASHLAR_AXES + 1];
    uint8_t kinds[HULLASHLAR_ENDS + 1];
    double values[HULLASHLAR_ENDS + 1];
    uint8_t modes[HULLASHLAR_AXES + 1];
    uint8_t directions[HULLASHLAR_AXES + 1];
    uint64_t place[HULLASHLAR_AXES + 1];
    double knots[HULLASHLAR_BUFFER + 1];
    double samples[HULLASHLAR_BUFFER + 1];
    double coordinates[HULLASHLAR_AXES + 2];
    uint64_t knots_length, samples_length, tensor_length;
};

/* The bytes of a sheet, with room for some more than the longest has. */
struct sheet {
    uint8_t bytes[HULLASHLAR_SHEET + 91];
    uint64_t length, bits;
};

uint32_t below(uint32_t limit);

/* One time in so many. */
bool seldom(uint32_t times);

/* The double of a pattern, and the pattern of a double, where every NaN is the same. */
double of_pattern(uint64_t pattern);
uint64_t pattern_of(double number);

/* Any mantissa and sign, and an exponent from the lowest to the highest. */
double any_between(int lowest, int highest);

/* A zero, an infinity, a NaN, a subnormal number, the largest one, 1. */
double special(void);

/* Makes one of a call's lengths one too long or too short, now and then. */
void disturb(uint64_t *lengths, uint32_t count);

/* A grid on one to four axes, most of them small, some with a fault. */
void make_grid(struct grid *grid);

/* The same on one axis, whose ends are the first two. */
void make_axis(struct grid *grid);

/* Coordinates inside the knots, on them, beyond them and of any other kind. */
void make_coordinates(struct grid *grid);

/* A grid as a sheet of either edition, whatever its faults. */
void pack(struct sheet *sheet, const struct grid *grid);

/* A place of the grid, or one next to it. */
void make_place(struct grid *grid);

#endif
