/* Whether hullashlar_floats_ready tells each float setting under which answers move from the one that the calls need. Compiled with -DFAST
 * and -ffast-math, as some hosts are: that leaves the program to begin with subnormal numbers flushed to zero. */
#include "hullashlar.h"

#include <stdio.h>
#include <xmmintrin.h>

#define USUAL 0x1F80u

static const struct { const char *name; unsigned int set; int ready; } settings[] = {
    {"to the nearest", 0, 1},
    {"flush to zero", 0x8000, 0},
    {"subnormals taken for zero", 0x0040, 0},
    {"rounding down", 0x2000, 0},
    {"rounding up", 0x4000, 0},
    {"rounding toward zero", 0x6000, 0},
};

int main(void)
{
    int faults = 0;
#ifdef FAST
    int begins_ready = hullashlar_floats_ready();
    printf("a host of -ffast-math begins %s\n", begins_ready ? "READY" : "not ready, as it must");
    faults += begins_ready;
#endif
    for (unsigned int at = 0; at < sizeof settings / sizeof *settings; at++) {
        _mm_setcsr(USUAL | settings[at].set);
        int ready = hullashlar_floats_ready();
        _mm_setcsr(USUAL);
        printf("%s: %s%s\n", settings[at].name, ready ? "ready" : "not ready", ready == settings[at].ready ? "" : ", WRONG");
        faults += ready != settings[at].ready;
    }
    return faults != 0;
}
