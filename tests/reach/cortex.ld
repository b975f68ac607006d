/* A Cortex-M4 of an emulator (mps2-an386). Constants and code stand first; all that changes begins as zeros. */
ENTRY(reset)
SECTIONS
{
    . = 0x00000000;
    .text : { KEEP(*(.vectors)) *(.text*) *(.rodata*) }
    /DISCARD/ : { *(.ARM.exidx*) *(.ARM.attributes) *(.comment) }
    . = 0x20000000;
    .data : { *(.data*) }
    .bss : { *(.bss*) *(COMMON) }
    stack_top = 0x20400000;
}
