/*
 * Where things lie on a board, whatever its sizes: m0.ld, m3.ld and m4.ld have those. The bytes of the stack are given on the
 * command line (-Wl,--defsym=stack_bytes=N), and the link fails where RAM is too small for it and the variables.
 */
ENTRY(reset)

SECTIONS
{
    .text : {
        KEEP(*(.vectors))
        *(.text*)
        *(.rodata*)
        . = ALIGN(4);
    } > FLASH
    /* The lowest place of RAM, so that a stack that is too deep is a fault. */
    .stack (NOLOAD) : {
        stack_bottom = .;
        . += stack_bytes;
        . = ALIGN(8);
        stack_top = .;
    } > RAM
    .data : {
        data_start = .;
        *(.data*)
        . = ALIGN(4);
        data_end = .;
    } > RAM AT > FLASH
    data_in_flash = LOADADDR(.data);
    .bss (NOLOAD) : {
        bss_start = .;
        *(.bss*)
        *(COMMON)
        . = ALIGN(4);
        bss_end = .;
    } > RAM
    /* Nothing here unwinds a stack. */
    /DISCARD/ : { *(.ARM.exidx*) *(.ARM.extab*) }
}
