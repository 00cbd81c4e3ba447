/* The firmware of an aid: it keeps the bytes of a sheet, and asks them for a gain by one call. It has no buffer for a tensor. */
#include "hullashlar.h"

#include <math.h>
#include <stdio.h>
#include <stdlib.h>
#include <string.h>

static uint8_t sheet[HULLASHLAR_SHEET + 1];
static uint64_t sheet_length;

static uint64_t pattern(double number)
{
    uint64_t bits;
    memcpy(&bits, &number, sizeof bits);
    return bits;
}

/* One byte more than the longest sheet is enough to have a file refused that is too long. */
static void load(const char *path)
{
    FILE *file = fopen(path, "rb");
    if (file == NULL) {
        perror(path);
        exit(1);
    }
    sheet_length = fread(sheet, 1, sizeof sheet, file);
    fclose(file);
}

static void print_answer(const char *question, uint64_t answer)
{
    double gain;

    if ((answer & HULLASHLAR_REFUSED) == HULLASHLAR_REFUSED) {
        printf("%s: refused %u\n", question, (unsigned)(answer - HULLASHLAR_REFUSED));
        return;
    }
    memcpy(&gain, &answer, sizeof gain);
    printf("%s: %.6f dB\n", question, gain);
}

int main(int count, char **arguments)
{
    const uint64_t frequency = pattern(1.5), level = pattern(60.0);

    if (!hullashlar_floats_ready()) return 3; /* numbers would be rounded or flushed otherwise than the call needs it */
    if (count != 2) {
        fprintf(stderr, "%s SHEET\n", arguments[0]);
        return 2;
    }
    load(arguments[1]);
    print_answer("gain at 1.5 kHz and 60.0 dB", hullashlar_surface(sheet, sheet_length, frequency, level, 0, 0));
    print_answer("at a level that is no number", hullashlar_surface(sheet, sheet_length, frequency, pattern(NAN), 0, 0));
    print_answer("with a third coordinate of -0", hullashlar_surface(sheet, sheet_length, frequency, level, pattern(-0.0), 0));
    print_answer("of half the sheet", hullashlar_surface(sheet, sheet_length / 2, frequency, level, 0, 0));
    return 0;
}
