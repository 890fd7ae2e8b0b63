/* An image: 16 bytes of header, and then what is loaded from 0x10000 on. */
ENTRY(start)
SECTIONS
{
    .header 0xfff0 : {
        LONG(0x31494b52)                    /* RKI1 */
        LONG(start)                         /* the entry */
        LONG(loaded_end - 0x10000)          /* loaded bytes */
        LONG(zero_end - loaded_end)         /* zero bytes behind them */
    }
    .loaded 0x10000 : {
        *(.text.start) *(.text .text.*)
        *(.rodata .rodata.* .srodata .srodata.* .data .data.* .sdata .sdata.*)
        . = ALIGN(4);
        loaded_end = .;
    }
    .zero (NOLOAD) : {
        *(.sbss .sbss.* .bss .bss.* COMMON)
        . = ALIGN(4);
        zero_end = .;
    }
    /DISCARD/ : { *(.comment .riscv.attributes .note .note.* .eh_frame .eh_frame.*) }
}
