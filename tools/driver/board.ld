/* The memory of Arm's MPS2 boards with a Cortex-M3 (AN385) or a Cortex-M4 (AN386), as board.c and the C library use it: the heap begins at `end`, the stack at its top. */
MEMORY
{
    flash (rx) : ORIGIN = 0x00000000, LENGTH = 4M
    ram (rw) : ORIGIN = 0x20000000, LENGTH = 4M
}
SECTIONS
{
    .text : { KEEP(*(.vectors)) . = ALIGN(256); *(.text*) *(.rodata*) } >flash
    .ARM.exidx : { *(.ARM.exidx*) } >flash
    .data : { *(.data*) } >ram
    .bss : { bss_start = .; *(.bss*) *(COMMON) . = ALIGN(8); bss_end = .; } >ram
    end = .;
    stack_top = ORIGIN(ram) + LENGTH(ram);
    stack_bottom = stack_top - 1M;
    paint_end = stack_top - 256; /* above it stands the frame of the function that paints */
}
