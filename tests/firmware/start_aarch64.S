/* The start of an AArch64 at EL1: stack, float unit, faults to their end, and the memory as it is but cached, since an access to
 * other memory may not be unaligned. */
    .section .start, "ax"
    .globl start
start:
    ldr x0, =stack_top
    mov sp, x0
    mov x0, #(3 << 20)
    msr cpacr_el1, x0
    ldr x0, =faults
    msr vbar_el1, x0
    mov x0, #0xFF
    msr mair_el1, x0
    ldr x0, =0x0000000100803520
    msr tcr_el1, x0
    ldr x0, =gigabytes
    msr ttbr0_el1, x0
    isb
    mrs x0, sctlr_el1
    ldr x1, =0x1005
    orr x0, x0, x1
    msr sctlr_el1, x0
    isb
    bl started

    .section .text
    .balign 2048
faults:
    .rept 16
    bl fault
    .balign 128
    .endr

/* The second gigabyte of addresses is the memory, and is mapped to itself. */
    .section .rodata
    .balign 4096
gigabytes:
    .quad 0
    .quad 0x40000000 + 0x701
    .quad 0
    .quad 0
