#include "inputs.h"

#ifndef SEED
#define SEED 1
#endif

/* Where the knots of each axis stand, as whole numbers times a power of two. */
static int64_t positions[HULLASHLAR_BUFFER];
static int scales[HULLASHLAR_AXES];

static uint64_t random_word(void)
{
    static uint64_t state = UINT64_C(0x9E3779B97F4A7C15) * SEED;
    state ^= state >> 12;
    state ^= state << 25;
    state ^= state >> 27;
    return state * UINT64_C(0x2545F4914F6CDD1D);
}

uint32_t below(uint32_t limit)
{
    return (uint32_t)(random_word() >> 33) % limit;
}

bool seldom(uint32_t times)
{
    return below(times) == 0;
}

double of_pattern(uint64_t pattern)
{
    double number;
    __builtin_memcpy(&number, &pattern, sizeof number);
    return number;
}

uint64_t pattern_of(double number)
{
    uint64_t pattern;
    __builtin_memcpy(&pattern, &number, sizeof pattern);
    const bool nan = (pattern & UINT64_C(0x7FFFFFFFFFFFFFFF)) > UINT64_C(0x7FF0000000000000);
    return nan ? UINT64_C(0x7FF8000000000000) : pattern;
}

/* A whole number below 2^53 times a power of two, where that is a normal number. */
static double scaled(int64_t whole, int exponent)
{
    const uint64_t sign = whole < 0 ? UINT64_C(1) << 63 : 0;
    const uint64_t magnitude = whole < 0 ? (uint64_t)-whole : (uint64_t)whole;
    if (magnitude == 0)
        return of_pattern(0);
    const int leading = 63 - __builtin_clzll(magnitude);
    const uint64_t mantissa = (magnitude << (52 - leading)) & ((UINT64_C(1) << 52) - 1);
    return of_pattern(sign | ((uint64_t)(1023 + leading + exponent) << 52) | mantissa);
}

double any_between(int lowest, int highest)
{
    const uint64_t exponent = (uint64_t)(1023 + lowest + (int)below((uint32_t)(highest - lowest + 1)));
    return of_pattern((random_word() & UINT64_C(0x800FFFFFFFFFFFFF)) | (exponent << 52));
}

double special(void)
{
    static const uint64_t patterns[] = {
        0, UINT64_C(0x8000000000000000), UINT64_C(0x7FF0000000000000), UINT64_C(0xFFF0000000000000),
        UINT64_C(0x7FF8000000000000), UINT64_C(0x7FF0000000000001), 1, UINT64_C(0x000FFFFFFFFFFFFF),
        UINT64_C(0x7FEFFFFFFFFFFFFF), UINT64_C(0x3FF0000000000000)};
    return of_pattern(patterns[below(sizeof patterns / sizeof patterns[0])]);
}

void disturb(uint64_t *lengths, uint32_t count)
{
    uint64_t *length = &lengths[below(count)];
    if (seldom(24))
        *length = seldom(2) ? *length + 1 : *length - (*length > 0);
}

/* On every fourth axis two points or three, which are too few for some ends. */
static void make_points(struct grid *grid)
{
    static const uint32_t small[] = {0, 24, 7, 4, 3}, large[] = {0, 256, 32, 8, 4};
    const uint32_t most = seldom(48) ? large[grid->axes] : small[grid->axes];
    grid->knots_length = 0;
    grid->samples_length = 1;
    for (uint64_t axis = 0; axis < HULLASHLAR_AXES; axis++) {
        const uint32_t choice = seldom(4) ? 2 : most - 1;
        grid->points[axis] = axis < grid->axes ? 2 + below(choice) : below(9);
        if (axis < grid->axes) {
            grid->knots_length += grid->points[axis];
            grid->samples_length *= grid->points[axis];
        }
    }
    grid->tensor_length = grid->samples_length << grid->axes;
}

/* Knots that rise, on about half of all axes evenly. */
static void make_knots(struct grid *grid)
{
    static const int steps[] = {0, 3, 20, 32};
    uint64_t knot = 0;
    for (uint64_t axis = 0; axis < grid->axes; axis++) {
        const int step = steps[below(4)];
        const int64_t same = seldom(2) ? 1 + below(9) : 0;
        int64_t position = (int64_t)below(2000) - 1000;
        scales[axis] = (int)below(9) - 4 - step;
        for (uint64_t point = 0; point < grid->points[axis]; point++, knot++) {
            positions[knot] = position;
            grid->knots[knot] = scaled(position, scales[axis]);
            position += same != 0 ? same << step : 1 + (int64_t)(random_word() >> (63 - step));
        }
    }
}

static void make_ends(struct grid *grid)
{
    for (uint64_t end = 0; end < HULLASHLAR_ENDS; end++) {
        const bool many = grid->points[end / 2] >= 4;
        grid->kinds[end] = (uint8_t)(many && seldom(3) ? HULLASHLAR_NOT_A_KNOT : 1 + below(2));
        grid->values[end] = seldom(2) ? of_pattern(0) : any_between(-3, 3);
    }
    for (uint64_t axis = 0; axis < HULLASHLAR_AXES; axis++) {
        if (seldom(4))
            grid->kinds[2 * axis] = grid->kinds[2 * axis + 1] = HULLASHLAR_PERIODIC;
        grid->modes[axis] = (uint8_t)below(3);
        grid->directions[axis] = (uint8_t)below(2);
    }
}

/* Samples of one kind for the whole grid: of a usual size, subnormal or next to it, of any size, small whole numbers. */
static void make_samples(struct grid *grid)
{
    const uint32_t kind = below(8);
    for (uint64_t sample = 0; sample < grid->samples_length; sample++)
        grid->samples[sample] = kind == 0   ? any_between(-1023, -1000)
                                : kind == 1 ? any_between(-1022, 1000)
                                : kind == 2 ? scaled((int64_t)below(201) - 100, -2)
                                            : any_between(-6, 6);
}

/* One fault of those that a call refuses before it computes. */
static void make_wrong(struct grid *grid)
{
    const uint64_t axis = below((uint32_t)grid->axes), end = below(2 * (uint32_t)grid->axes);
    const uint32_t sample = below((uint32_t)grid->samples_length);
    switch (below(8)) {
    case 0: grid->axes = seldom(2) ? 0 : 5; break;
    case 1: grid->points[axis] = seldom(2) ? below(2) : 257; break;
    case 2: grid->points[axis] = 256; grid->points[(axis + 1) % grid->axes] = 256; break;
    case 3: grid->kinds[end] = (uint8_t)(3 + below(2)); break;
    case 4: grid->modes[axis] = grid->directions[axis] = 3; break;
    case 5: grid->values[end] = special(); break;
    case 6: grid->samples[sample] = special(); break;
    default: grid->kinds[2 * axis] = grid->kinds[2 * axis + 1] = HULLASHLAR_NOT_A_KNOT; break;
    }
}

/* Knots that do not rise, or by too much, or are no numbers. */
static void make_knots_wrong(struct grid *grid)
{
    const uint32_t knot = below((uint32_t)grid->knots_length);
    switch (below(3)) {
    case 0: grid->knots[knot] = special(); break;
    case 1: grid->knots[knot] = grid->knots[knot / 2]; break;
    default: grid->knots[0] = of_pattern(UINT64_C(0xFFEFFFFFFFFFFFFF)); grid->knots[1] = any_between(1020, 1023); break;
    }
}

void make_grid(struct grid *grid)
{
    grid->axes = 1 + below(HULLASHLAR_AXES);
    make_points(grid);
    make_knots(grid);
    make_ends(grid);
    make_samples(grid);
    if (seldom(4))
        make_wrong(grid);
    else if (seldom(12))
        make_knots_wrong(grid);
}

void make_axis(struct grid *grid)
{
    grid->axes = 1;
    make_points(grid);
    make_knots(grid);
    make_ends(grid);
    make_samples(grid);
    if (seldom(5))
        make_wrong(grid);
    else if (seldom(8))
        make_knots_wrong(grid);
    grid->axes = 1;
}

static double make_coordinate(uint64_t first, uint64_t last, int scale)
{
    const int64_t lower = 16 * positions[first], width = 16 * (positions[last] - positions[first]);
    const int64_t within = (int64_t)(random_word() % (uint64_t)(width + 1));
    switch (below(12)) {
    case 0: return scaled(positions[first + below((uint32_t)(last - first + 1))], scale);
    case 1: return scaled(lower - 1 - within, scale - 4);
    case 2: return scaled(lower + width + 1 + within, scale - 4);
    case 3: return seldom(2) ? any_between(-30, 70) : any_between(1000, 1023);
    case 4: return seldom(4) ? special() : of_pattern(random_word());
    default: return scaled(lower + within, scale - 4);
    }
}

void make_coordinates(struct grid *grid)
{
    uint64_t first = 0;
    const bool whole = grid->axes >= 1 && grid->axes <= HULLASHLAR_AXES;
    for (uint64_t axis = 0; axis < HULLASHLAR_AXES; axis++) {
        const uint64_t last = first + grid->points[axis] - 1;
        const bool used = whole && axis < grid->axes && grid->points[axis] >= 2 && last < grid->knots_length &&
                          positions[first] < positions[last];
        grid->coordinates[axis] = used ? make_coordinate(first, last, scales[axis]) : of_pattern(0);
        if (used)
            first += grid->points[axis];
    }
}

void make_place(struct grid *grid)
{
    for (uint64_t axis = 0; axis < HULLASHLAR_AXES; axis++) {
        const uint32_t points = (uint32_t)grid->points[axis];
        grid->place[axis] = below((points > 0 ? points : 1) + seldom(24));
    }
}

/* Bits of a sheet, the highest first, as long as it has room. */
static void put(struct sheet *sheet, uint64_t number, int width)
{
    for (int bit = width - 1; bit >= 0 && sheet->bits < 8 * sizeof sheet->bytes; bit--, sheet->bits++) {
        const uint8_t mask = (uint8_t)(0x80 >> sheet->bits % 8);
        uint8_t *byte = &sheet->bytes[sheet->bits / 8];
        *byte = (uint8_t)(number >> bit & 1 ? *byte | mask : *byte & ~mask);
    }
}

static void put_axis(struct sheet *sheet, const struct grid *grid, uint64_t axis, uint64_t first, int edition)
{
    put(sheet, grid->points[axis] - 1, 8);
    put(sheet, grid->kinds[2 * axis], 2);
    put(sheet, grid->kinds[2 * axis + 1], 2);
    put(sheet, grid->modes[axis], edition == 2 ? 2 : 0);
    for (uint64_t end = 2 * axis; end < 2 * axis + 2; end++)
        if (grid->kinds[end] == HULLASHLAR_FIRST_DERIVATIVE || grid->kinds[end] == HULLASHLAR_SECOND_DERIVATIVE)
            put(sheet, pattern_of(grid->values[end]), 64);
    for (uint64_t knot = first; knot < first + grid->points[axis] && knot < HULLASHLAR_BUFFER; knot++)
        put(sheet, pattern_of(grid->knots[knot]), 64);
}

void pack(struct sheet *sheet, const struct grid *grid)
{
    const int edition = 1 + (int)below(2);
    uint64_t first = 0;
    sheet->bits = 0;
    put(sheet, seldom(24) ? below(16) : (uint64_t)edition, 4);
    put(sheet, grid->axes, 3);
    for (uint64_t axis = 0; axis < grid->axes && axis < HULLASHLAR_AXES; axis++) {
        put_axis(sheet, grid, axis, first, edition);
        first += grid->points[axis];
    }
    for (uint64_t sample = 0; sample < grid->samples_length; sample++)
        put(sheet, pattern_of(grid->samples[sample]), 64);
    put(sheet, 0, (int)(7 - (sheet->bits + 7) % 8));
    sheet->length = sheet->bits / 8;
}
