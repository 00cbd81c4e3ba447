/* A program on the machine that the test runs on: what it emits goes to standard output. */
#include "machine.h"

#include <stdio.h>
#include <stdlib.h>

void emit(const void *bytes, uint32_t length)
{
    if (fwrite(bytes, 1, length, stdout) != length) {
        perror("standard output");
        exit(1);
    }
}

int main(void)
{
    return program() == 0 && fflush(stdout) == 0 ? 0 : 1;
}
