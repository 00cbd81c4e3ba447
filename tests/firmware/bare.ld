/* A program without a system under it: the code from code_start on, the data from data_start on, both given at the link, and a
 * stack behind the data. The emulator loads every section to its place. */
ENTRY(start)
SECTIONS
{
    . = code_start;
    .start : { KEEP(*(.start)) }
    .text : { *(.text .text.*) *(.rodata .rodata.*) KEEP(*(.init)) KEEP(*(.fini)) }
    .ARM.extab : { *(.ARM.extab*) }
    .ARM.exidx : { __exidx_start = .; *(.ARM.exidx*) __exidx_end = .; }
    . = data_start;
    .data : { *(.data .data.*) *(.sdata .sdata.*) *(.got .got.*) }
    __global_pointer$ = ADDR(.data) + 0x800;
    .bss : { . = ALIGN(16); *(.sbss .sbss.*) *(.bss .bss.*) *(COMMON) . = ALIGN(16); }
    end = .;
    __end__ = .;
    stack_top = ALIGN(data_start + 0x200000, 16);
    ASSERT(. < stack_top - 0x40000, "the stack has 256 KB")
    /DISCARD/ : { *(.eh_frame*) *(.comment) *(.note*) }
}
