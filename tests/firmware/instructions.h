/* The instructions that the emulator has run, where it takes one nanosecond for each. */
#ifndef INSTRUCTIONS_H
#define INSTRUCTIONS_H

#include <stdint.h>

#if defined(__aarch64__)

static void count_instructions(void)
{
    __asm volatile("msr pmcr_el0, %0\n msr pmcntenset_el0, %1" : : "r"(UINT64_C(1)), "r"(UINT64_C(1) << 31));
}

static uint64_t instructions(void)
{
    uint64_t count;
    __asm volatile("isb\n mrs %0, pmccntr_el0" : "=r"(count));
    return count;
}

#elif defined(__riscv)

static void count_instructions(void)
{
}

#if __riscv_xlen == 64
static uint64_t instructions(void)
{
    uint64_t count;
    __asm volatile(".option push\n .option arch, +zicsr\n csrr %0, minstret\n .option pop" : "=r"(count));
    return count;
}
#else
static uint64_t instructions(void)
{
    uint32_t high, low, again;
    do
        __asm volatile(".option push\n .option arch, +zicsr\n csrr %0, minstreth\n csrr %1, minstret\n csrr %2, minstreth\n .option pop"
                       : "=r"(high), "=r"(low), "=r"(again));
    while (high != again);
    return (uint64_t)high << 32 | low;
}
#endif

#else

/* A Cortex-M counts ticks of its board, TICK nanoseconds each, downward from 2^24, and says whether it began anew since it was
 * last asked. */
static uint32_t rounds;

#define REGISTER(address) (*(volatile uint32_t *)(address))

static void count_instructions(void)
{
    REGISTER(0xE000E014) = 0xFFFFFF;
    REGISTER(0xE000E018) = 0;
    REGISTER(0xE000E010) = 5;
}

static uint64_t instructions(void)
{
    const uint32_t control = REGISTER(0xE000E010);
    const uint32_t left = REGISTER(0xE000E018);
    rounds += control >> 16 & 1;
    return ((uint64_t)rounds << 24) * TICK + (uint64_t)(0x1000000 - left) * TICK;
}

#endif

#endif
