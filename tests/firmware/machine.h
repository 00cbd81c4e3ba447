/* What a machine gives to the programs here: a place for what they find. */
#ifndef MACHINE_H
#define MACHINE_H

#include <stdint.h>

/* Bytes that leave the machine, after those before them. */
void emit(const void *bytes, uint32_t length);

/* What is run: main without arguments, and 0 where all went well. */
int program(void);

#endif
