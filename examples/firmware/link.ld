/* The machine's memory begins at 1 GB. Of the box's own memory (box.o) every byte is chance at reset; the bench's outlives a loss. */
ENTRY(_start)
SECTIONS
{
    . = 0x40080000;
    .text : { *(.text.start) *(.text .text.*) }
    .rodata : { *(.rodata .rodata.*) *(.eh_frame) }
    .table : { *(.table) }
    . = ALIGN(4096);
    .data : { *(.data .data.*) }
    .box (NOLOAD) : { . = ALIGN(4096); box_begin = .; *box.o(.bss .bss.*) . = ALIGN(16); . += 0x8000; box_stack = .; box_end = .; }
    .bss (NOLOAD) : { *(.bss .bss.* COMMON) . = ALIGN(16); . += 0x20000; bench_stack = .; }
    /DISCARD/ : { *(.note*) *(.comment) *(.ARM.attributes) }
}
