/* Where the parts of a program are. The stack takes the RAM that is left. */
ENTRY(first)
SECTIONS {
    .text : { first = .; KEEP(*(.first)) *(.text*) *(.rodata* .srodata*) . = ALIGN(8); } >ROM
    .data : { data_begin = .; *(.data* .sdata*) . = ALIGN(8); data_end = .; } >RAM AT>ROM
    .bss (NOLOAD) : { *(.bss* .sbss* COMMON) . = ALIGN(8); bss_end = .; } >RAM
    data_in_rom = LOADADDR(.data);
    stack_end = ORIGIN(RAM) + LENGTH(RAM);
    /DISCARD/ : { *(.ARM.exidx* .eh_frame* .comment .note* .riscv.attributes .ARM.attributes) }
}
ASSERT(stack_end - bss_end >= 8K, "less than 8 KiB are left for the stack")
