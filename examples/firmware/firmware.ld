/* Where the parts of the program stand on an mps2-an386. STACK is set by `build`. */
ENTRY(reset)
SECTIONS
{
    . = 0x00000000;
    .text : { KEEP(*(.vectors)) *(.text*) *(.rodata*) . = ALIGN(8); }
    data_from = .;
    . = 0x20000000;
    .noinit (NOLOAD) : { *(.noinit) . = ALIGN(8); }
    .data : AT(data_from) { data_begin = .; *(.data*) . = ALIGN(8); data_end = .; }
    .bss (NOLOAD) : { zeros_begin = .; *(.bss*) *(COMMON) . = ALIGN(16); zeros_end = .; }
    stack_low = .;
    stack_top = . + STACK;
    ASSERT(stack_top <= 0x20400000, "more memory than there is")
    /DISCARD/ : { *(.ARM.exidx*) *(.ARM.attributes) *(.comment) }
}
