/* The start of a Cortex-M: its first two words are the stack and where it begins. */
#include <stdint.h>

#define REGISTER(address) (*(volatile uint32_t *)(address))

extern uint32_t stack_top;
void started(void);
void fault(void);

void start(void);
void start(void)
{
    /* The float unit is on, where there is one. On a Cortex-M0+ an access that is not aligned is a fault. */
#ifdef __ARM_FP
    REGISTER(0xE000ED88) |= UINT32_C(0xF) << 20;
#endif
#if __ARM_ARCH == 6
    REGISTER(0xE000ED14) |= UINT32_C(1) << 3;
#endif
    __asm volatile("dsb\n isb");
    started();
}

__attribute__((section(".start"), used)) static void (*const vectors[16])(void) = {
    (void (*)(void))(uintptr_t)&stack_top, start, fault, fault, fault, fault, fault, fault, 0, 0, 0, fault, fault, 0, fault, fault};
