/* hullashlar_surface: a gain from the bytes of a sheet by one call, for firmware that keeps no tensor.
 * By hand: 30 + 4 * 1.5 - 0.5 * 15 = 28.5 dB at 2.5 kHz and 65 dB, and the sample 29 at 2 kHz and 60 dB. The sheet says
 * that levels outside are refused; a third coordinate is refused since the sheet has two axes. */
#include "gain.h"

static uint8_t sheet[HULLASHLAR_SHEET];
static uint64_t sheet_length;

/* The pattern of a double. */
static uint64_t pattern(double number)
{
    uint64_t bits;
    memcpy(&bits, &number, sizeof bits);
    return bits;
}

static void ask(const char *what, double frequency, double level, uint64_t third)
{
    uint64_t answer = hullashlar_surface(sheet, sheet_length, pattern(frequency), pattern(level), third, 0);
    double gain;
    if ((answer & HULLASHLAR_REFUSED) == HULLASHLAR_REFUSED) {
        print_refusal(what, answer - HULLASHLAR_REFUSED);
        return;
    }
    memcpy(&gain, &answer, sizeof gain);
    printf("%s: gain %.3f dB\n", what, gain);
}

int main(void)
{
    if (!hullashlar_floats_ready()) return 3;
    sheet_length = write_gain(2, sheet);
    ask("2.5 kHz, 65 dB", 2.5, 65.0, 0);
    ask("2 kHz, 60 dB", 2.0, 60.0, 0);
    ask("2 kHz, 95 dB", 2.0, 95.0, 0);
    ask("a third coordinate", 2.0, 60.0, pattern(1.0));
    return 0;
}
