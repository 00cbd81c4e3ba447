/* hullashlar_read_edition_1: the parts of a sheet of edition 1, which has no modes.
 * The sheet is that of the surface, so what is read are the arrays of gain.h. A sheet of edition 2 is refused. */
#include "gain.h"

static uint8_t bytes[HULLASHLAR_SHEET];
static double read_knots[HULLASHLAR_BUFFER], read_samples[HULLASHLAR_BUFFER], ends[HULLASHLAR_ENDS];
static uint64_t axes, read_points[HULLASHLAR_AXES];
static uint8_t read_kinds[HULLASHLAR_ENDS];

static uint64_t read_sheet(uint64_t length)
{
    return hullashlar_read_edition_1(bytes, length, LENT(read_knots), LENT(read_samples), &axes, 1, LENT(read_points),
                                     LENT(read_kinds), LENT(ends));
}

int main(void)
{
    accept(read_sheet(write_gain(1, bytes)));
    printf("%u axes, %u and %u points, kinds %u %u %u %u\n", (unsigned)axes, (unsigned)read_points[0],
           (unsigned)read_points[1], read_kinds[0], read_kinds[1], read_kinds[2], read_kinds[3]);
    print_numbers("gains at 4 kHz", &read_samples[3 * LEVELS], LEVELS);
    print_refusal("edition 2", read_sheet(write_gain(2, bytes)));
    return 0;
}
