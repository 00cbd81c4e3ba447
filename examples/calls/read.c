/* hullashlar_read: the parts of a sheet.
 * The sheet is that of the surface in edition 2, so what is read are the arrays of gain.h. A sheet that is cut in half
 * ends before its fields do, and one with a byte more goes on after them. */
#include "gain.h"

static uint8_t bytes[HULLASHLAR_SHEET + 1];
static double read_knots[HULLASHLAR_BUFFER], read_samples[HULLASHLAR_BUFFER], ends[HULLASHLAR_ENDS];
static uint64_t axes, edition, read_points[HULLASHLAR_AXES];
static uint8_t read_kinds[HULLASHLAR_ENDS], read_modes[HULLASHLAR_AXES];

static uint64_t read_sheet(uint64_t length)
{
    return hullashlar_read(bytes, length, LENT(read_knots), LENT(read_samples), &axes, 1, LENT(read_points),
                           LENT(read_kinds), LENT(ends), LENT(read_modes), &edition, 1);
}

int main(void)
{
    uint64_t length = write_gain(2, bytes);

    accept(read_sheet(length));
    printf("edition %u, %u axes, %u and %u points, modes %u and %u\n", (unsigned)edition, (unsigned)axes,
           (unsigned)read_points[0], (unsigned)read_points[1], read_modes[0], read_modes[1]);
    print_numbers("knots", read_knots, KNOTS);
    print_numbers("gains at 2 kHz", &read_samples[LEVELS], LEVELS);
    print_refusal("half of the sheet", read_sheet(length / 2));
    print_refusal("a byte more", read_sheet(length + 1));
    printf("and there are %u axes then\n", (unsigned)axes);
    return 0;
}
