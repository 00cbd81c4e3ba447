/* A machine without a system: what a program emits goes to the file `emitted` of the emulator's folder, by semihosting. */
#include "machine.h"

#include <stddef.h>

enum { OPEN = 0x01, WRITE = 0x05, EXIT = 0x20, WRITE_BINARY = 5, APPLICATION_EXIT = 0x20026 };

/* One question to the emulator: an operation, and the words that it takes. */
static uintptr_t ask(uintptr_t operation, const uintptr_t *words)
{
#if defined(__aarch64__)
    register uintptr_t first __asm("x0") = operation;
    register const uintptr_t *second __asm("x1") = words;
    __asm volatile("hlt #0xF000" : "+r"(first) : "r"(second) : "memory");
#elif defined(__riscv)
    register uintptr_t first __asm("a0") = operation;
    register const uintptr_t *second __asm("a1") = words;
    __asm volatile(".balign 16\n .option push\n .option norvc\n slli x0, x0, 0x1F\n ebreak\n srai x0, x0, 7\n .option pop"
                   : "+r"(first)
                   : "r"(second)
                   : "memory");
#else
    register uintptr_t first __asm("r0") = operation;
    register const uintptr_t *second __asm("r1") = words;
    __asm volatile("bkpt #0xAB" : "+r"(first) : "r"(second) : "memory");
#endif
    return first;
}

static void leave(uintptr_t status)
{
    const uintptr_t words[] = {APPLICATION_EXIT, status};
    for (;;)
        ask(EXIT, words);
}

static uint8_t held[1 << 16];
static uint32_t held_length;

static void hand_over(void)
{
    static uintptr_t file;
    static int opened;
    if (!opened) {
        const uintptr_t words[] = {(uintptr_t) "emitted", WRITE_BINARY, sizeof "emitted" - 1};
        file = ask(OPEN, words);
        opened = 1;
    }
    const uintptr_t words[] = {file, (uintptr_t)held, held_length};
    if (ask(WRITE, words) != 0)
        leave(3);
    held_length = 0;
}

void emit(const void *bytes, uint32_t length)
{
    if (held_length + length > sizeof held)
        hand_over();
    for (uint32_t place = 0; place < length; place++)
        held[held_length++] = ((const uint8_t *)bytes)[place];
}

void fault(void);
void fault(void)
{
    leave(2);
}

/* Sets the float settings of an error that the test must find, where FLUSH_TO_ZERO or ROUND_UP asks for it. */
static void set_float_settings(void)
{
#if defined(FLUSH_TO_ZERO) || defined(ROUND_UP)
#ifdef FLUSH_TO_ZERO
    const uintptr_t settings = UINT32_C(1) << 24;
#else
    const uintptr_t settings = UINT32_C(1) << 22;
#endif
#if defined(__aarch64__)
    __asm volatile("msr fpcr, %0" : : "r"(settings));
#elif defined(__riscv_flen) && defined(ROUND_UP)
    (void)settings;
    __asm volatile("fsrmi 3");
#elif defined(__ARM_FP) && (__ARM_FP & 8)
    __asm volatile("vmsr fpscr, %0" : : "r"(settings));
#else
#error "this processor has no such setting"
#endif
#endif
}

void started(void);
void started(void)
{
    set_float_settings();
    const int status = program();
    hand_over();
    leave((uintptr_t)status);
}
