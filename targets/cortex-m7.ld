/* The board mps2-an500: code at 0, 4 MB of memory at 0x20000000, 16 MB more at 0x60000000, where the stored answers go. */
SECTIONS {
    . = 0x0;
    .text : { *(.vectors) *(.text*) *(.rodata*) }
    .ARM.exidx : { *(.ARM.exidx*) }
    . = 0x20000000;
    .data : { *(.data*) }
    .bss : { *(.bss*) *(COMMON) }
}
