/*
 * Where the firmware lies on the board MPS2 with the image AN385. The board has more of both memories: these sizes are those of a small
 * device, and the linker refuses a firmware that needs more.
 */
MEMORY
{
    FLASH (rx) : ORIGIN = 0x00000000, LENGTH = 40K
    RAM (rwx) : ORIGIN = 0x20000000, LENGTH = 10K
}

ENTRY(reset)

SECTIONS
{
    .text : { KEEP(*(.vectors)) *(.text .text.*) *(.rodata .rodata.*) . = ALIGN(4); } >FLASH

    /* The stack comes first: if it grew too far it would leave the memory, which faults, and not run into data. */
    .stack (NOLOAD) : { stack_end = .; . += 5K; stack_top = .; } >RAM

    .data : { data_begin = .; *(.data .data.*) . = ALIGN(4); data_end = .; } >RAM AT>FLASH
    data_stored = LOADADDR(.data);
    .bss (NOLOAD) : { bss_begin = .; *(.bss .bss.* COMMON) . = ALIGN(4); bss_end = .; } >RAM

    /DISCARD/ : { *(.ARM.exidx .ARM.exidx.* .ARM.extab .ARM.extab.* .comment) }
}
