/* hullashlar_cell_value: a gain between two knots, in whole numbers of 1/256 dB.
 * The gain rises from 20 dB (5,120) to 30 dB (7,680), and both slopes are the rise, 2,560. So the cubic is the line
 * 5,120 + 10 * k: 22.5 dB (5,760) at position 64, 25 dB (6,400) at 128. */
#include "gain.h"

int main(void)
{
    const int32_t low = 20 * 256, high = 30 * 256, rise = 10 * 256;
    int32_t gain;

    for (int32_t k = 0; k <= 256; k += 64) {
        accept(hullashlar_cell_value(low, high, rise, rise, k, &gain, 1));
        printf("position %d: %d, %.2f dB\n", (int)k, (int)gain, gain / 256.0);
    }
    print_refusal("position 257", hullashlar_cell_value(low, high, rise, rise, 257, &gain, 1));
    print_refusal("a gain of 128 dB", hullashlar_cell_value(128 * 256, high, rise, rise, 0, &gain, 1));
    return 0;
}
