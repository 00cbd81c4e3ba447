/* hullashlar_write: the sheet of a gain surface.
 * In edition 2 it has 7 bits, 14 for each axis, and 64 for each of 4 end values, 8 knots and 16 samples: 1,827 bits, so
 * 229 bytes. The first byte is edition 2 (0010), two axes (010) and the first bit of the points less 1 (0): 24. */
#include "gain.h"

static uint8_t bytes[HULLASHLAR_SHEET];

static uint64_t write_sheet(uint64_t edition, uint64_t room, uint64_t *length)
{
    return hullashlar_write(AXES, LENT(points), LENT(kinds), LENT(values), LENT(modes), LENT(knots), LENT(samples),
                            edition, bytes, room, length, 1);
}

int main(void)
{
    uint64_t length;

    if (!hullashlar_floats_ready()) return 3;
    accept(write_sheet(2, HULLASHLAR_SHEET, &length));
    printf("%u bytes, the first is %02X\n", (unsigned)length, bytes[0]);
    print_refusal("edition 1, which has no hold", write_sheet(1, HULLASHLAR_SHEET, &length));
    print_refusal("edition 3", write_sheet(3, HULLASHLAR_SHEET, &length));
    print_refusal("228 bytes", write_sheet(2, 228, &length));
    return 0;
}
