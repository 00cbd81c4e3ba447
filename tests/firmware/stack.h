/* How deep a call goes, where STACKS is asked for: below the caller's frame the stack is painted, and then looked at. A record has
 * the bytes in place of the hash. */
#ifndef STACK_H
#define STACK_H

#include <stdint.h>

#ifdef STACKS

enum { PAINTED = 48 * 1024 };
#define PAINT UINT32_C(0xC5A3917F)

static uint64_t deepest_bytes;

#if defined(__riscv)
#define STACK_POINTER(place) __asm volatile("mv %0, sp" : "=r"(place))
#else
#define STACK_POINTER(place) __asm volatile("mov %0, sp" : "=r"(place))
#endif

static inline __attribute__((always_inline)) void paint(void)
{
    uintptr_t top;
    STACK_POINTER(top);
    for (uintptr_t place = top - PAINTED; place < top; place += sizeof(uint32_t))
        *(volatile uint32_t *)place = PAINT;
}

static inline __attribute__((always_inline)) uint64_t looked(uint64_t answer)
{
    uintptr_t top;
    STACK_POINTER(top);
    uintptr_t place = top - PAINTED;
    while (place < top && *(volatile uint32_t *)place == PAINT)
        place += sizeof(uint32_t);
    deepest_bytes = top - place;
    return answer;
}

#define MEASURED(call) (paint(), looked(call))
#define RECORDED(hash) ((void)(hash), deepest_bytes)

#else

#define MEASURED(call) (call)
#define RECORDED(hash) (hash)

#endif

#endif
