/* hullashlar_cursor_next: a walk along a curve of two cells, in whole numbers of 1/256 dB.
 * The gain rises from 20 dB (5,120) by 10 dB in each cell, on a line, so the number at cursor c is 5,120 + 10 * c. Two
 * cells have 2 * 256 + 1 numbers, the last of them 40 dB (10,240). Then the walk is refused, and the cursor stays. */
#include "gain.h"

enum { CELLS = 2, CELL_BYTES = 16 };

/* A number of 32 bits, the lowest byte first. */
static void put(uint8_t *place, int32_t number)
{
    for (int i = 0; i < 4; i++)
        place[i] = (uint8_t)((uint32_t)number >> (8 * i));
}

int main(void)
{
    uint8_t curve[CELLS * CELL_BYTES];
    uint32_t cursor = 0;
    int32_t gain;
    uint64_t refusal;

    for (int cell = 0; cell < CELLS; cell++) {
        const int32_t low = 5120 + 2560 * cell;
        const int32_t numbers[4] = {low, low + 2560, 2560, 2560};
        for (int i = 0; i < 4; i++)
            put(&curve[CELL_BYTES * cell + 4 * i], numbers[i]);
    }
    while ((refusal = hullashlar_cursor_next(LENT(curve), &cursor, 1, &gain, 1)) == HULLASHLAR_ACCEPTED)
        if (cursor % 128 == 1)
            printf("cursor %u: %d, %.2f dB\n", (unsigned)cursor - 1, (int)gain, gain / 256.0);
    print_refusal("past the end", refusal);
    printf("cursor %u\n", (unsigned)cursor);
    return 0;
}
