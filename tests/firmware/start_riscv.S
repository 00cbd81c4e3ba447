/* The start of a RISC-V: stack and global pointer, faults to their end, the float unit on where there is one. */
    .option arch, +zicsr
    .section .start, "ax"
    .globl start
start:
    .option push
    .option norelax
    la gp, __global_pointer$
    .option pop
    la sp, stack_top
    la t0, trapped
    csrw mtvec, t0
#ifdef __riscv_flen
    li t0, 0x2000
    csrs mstatus, t0
    csrw fcsr, zero
#endif
    call started
    .balign 4
trapped:
    call fault
