/* A loop in C over the exported call for many points: reads the knots, the tensor and the points of a surface of two axes from the files
 * that queries.py has written, and prints the seconds of each round. */
#include "hullashlar.h"

#include <stdio.h>
#include <stdlib.h>
#include <time.h>

enum { AXES = 2, SIDE = 16, KNOTS = AXES * SIDE, NUMBERS = SIDE * SIDE * 4, POINTS = 1000000, PIECE = 4096, ROUNDS = 9 };

static const uint64_t points[HULLASHLAR_AXES] = {SIDE, SIDE};
static const uint8_t modes[HULLASHLAR_AXES] = {HULLASHLAR_EXTEND, HULLASHLAR_EXTEND};
static double knots[KNOTS], tensor[NUMBERS], coordinates[AXES * POINTS], values[POINTS];
static uint64_t labels[HULLASHLAR_AXES * PIECE], refusals[POINTS];

static void read_doubles(const char *path, double *numbers, size_t length)
{
    FILE *file = fopen(path, "rb");
    if (file == NULL || fread(numbers, sizeof *numbers, length, file) != length) {
        perror(path);
        exit(1);
    }
    fclose(file);
}

static void ask_all(void)
{
    for (size_t start = 0; start < POINTS; start += PIECE) {
        size_t length = POINTS - start < PIECE ? POINTS - start : PIECE;
        uint64_t refusal = hullashlar_quick_queries(AXES, points, HULLASHLAR_AXES, modes, HULLASHLAR_AXES, knots, KNOTS, tensor,
                                                    NUMBERS, coordinates + AXES * start, AXES * length, values + start,
                                                    length, labels, HULLASHLAR_AXES * length, refusals + start, length);
        if (refusal != HULLASHLAR_ACCEPTED)
            exit(1);
    }
}

static double seconds(void)
{
    struct timespec now;
    clock_gettime(CLOCK_MONOTONIC, &now);
    return (double)now.tv_sec + 1e-9 * (double)now.tv_nsec;
}

int main(void)
{
    read_doubles("knots", knots, KNOTS);
    read_doubles("tensor", tensor, NUMBERS);
    read_doubles("points", coordinates, AXES * POINTS);
    ask_all();
    for (int round = 0; round < ROUNDS; round++) {
        double start = seconds();
        ask_all();
        printf("%.6f\n", seconds() - start);
    }
    return 0;
}
