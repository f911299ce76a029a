/* A Cortex-M: the linker's --defsym sets CODE, RAM, STACK and HEAP. The stack is below the data, so it ends at the memory's begin. */
ENTRY(vectors)
SECTIONS {
    . = CODE;
    .text : { KEEP(*(.vectors)) *(.text .text.*) }
    .rodata : { *(.rodata .rodata.*) . = ALIGN(8); }
    .ARM.exidx : { *(.ARM.exidx*) . = ALIGN(8); }
    data_from = .;
    . = RAM;
    stack_bottom = .;
    . += STACK;
    stack_top = .;
    data_start = .;
    .data : AT(data_from) { *(.data .data.*) . = ALIGN(8); }
    data_end = .;
    .bss (NOLOAD) : { bss_start = .; *(.bss .bss.* COMMON) . = ALIGN(16); bss_end = .; }
    heap_start = .;
    heap_end = heap_start + HEAP;
    /DISCARD/ : { *(.comment .note* .eh_frame* .ARM.attributes) }
}
