/* hullashlar_sheet_tensor: a sheet read and built in one call.
 * The tensor has 4 numbers for each of the 16 samples, 64. At 2 kHz and 60 dB these are the sample 29, the slopes 4 and
 * -0.5, and no mixed derivative. Where only the scratch is too short, the parts are there all the same. */
#include "gain.h"

static uint8_t bytes[HULLASHLAR_SHEET];
static double read_knots[HULLASHLAR_BUFFER], read_samples[HULLASHLAR_BUFFER], ends[HULLASHLAR_ENDS];
static uint64_t axes, edition, numbers, read_points[HULLASHLAR_AXES];
static uint8_t read_kinds[HULLASHLAR_ENDS], read_modes[HULLASHLAR_AXES];
static double tensor[HULLASHLAR_TENSOR], scratch[HULLASHLAR_MOST_SCRATCH];

static uint64_t load(uint64_t length, uint64_t scratch_length)
{
    return hullashlar_sheet_tensor(bytes, length, LENT(read_knots), LENT(read_samples), &axes, 1, LENT(read_points),
                                   LENT(read_kinds), LENT(ends), LENT(read_modes), &edition, 1, LENT(tensor), scratch,
                                   scratch_length, &numbers, 1);
}

int main(void)
{
    uint64_t length = write_gain(2, bytes);

    if (!hullashlar_floats_ready()) return 3;
    accept(load(length, HULLASHLAR_MOST_SCRATCH));
    printf("a tensor of %u numbers on %u axes\n", (unsigned)numbers, (unsigned)axes);
    print_numbers("masks 0 to 3 at place (1, 1)", &tensor[(1 * LEVELS + 1) << AXES], 1 << AXES);
    print_refusal("a scratch that is short by one number", load(length, SCRATCH - 1));
    printf("a tensor of %u numbers on %u axes\n", (unsigned)numbers, (unsigned)axes);
    return 0;
}
