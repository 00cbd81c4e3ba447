/* What the replay program is given of a system: the fixed list as its standard input, and its standard output handed over. The
 * program is ours, compiled for the processor as the archive is; its lengths have 64 bits on every one. */
#include "machine.h"

__asm(".section .rodata\n .balign 8\n .globl list_begin\n list_begin: .incbin \"" LIST "\"\n .globl list_end\n list_end:\n .text\n");

extern const uint8_t list_begin[], list_end[];

int main(void);
int64_t read(int32_t stream, void *to, uint64_t length);
int64_t write(int32_t stream, const void *from, uint64_t length);
int32_t rattle_errno(void);
int32_t __xpg_strerror_r(int32_t number, char *text, uint64_t length);

int64_t read(int32_t stream, void *to, uint64_t length)
{
    static const uint8_t *next = list_begin;
    const uint64_t left = (uint64_t)(list_end - next), given = length < left ? length : left;
    (void)stream;
    __builtin_memcpy(to, next, (uintptr_t)given);
    next += given;
    return (int64_t)given;
}

int64_t write(int32_t stream, const void *from, uint64_t length)
{
    (void)stream;
    emit(from, (uint32_t)length);
    return (int64_t)length;
}

/* Of an error, which the two above never answer. */
int32_t rattle_errno(void)
{
    return 0;
}

int32_t __xpg_strerror_r(int32_t number, char *text, uint64_t length)
{
    (void)number;
    if (length > 0)
        text[0] = 0;
    return 0;
}

int program(void)
{
    return main();
}
