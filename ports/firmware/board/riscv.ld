/* qemu's RISC-V machine `virt`, which loads all into its memory. */
ENTRY(start)
SECTIONS {
    . = 0x80000000;
    .text : { KEEP(*(.start)) *(.text .text.*) }
    .rodata : { *(.rodata .rodata.* .srodata .srodata.*) . = ALIGN(16); }
    .data : { *(.data .data.*) __global_pointer$ = . + 0x800; *(.sdata .sdata.*) . = ALIGN(16); }
    .bss (NOLOAD) : { bss_start = .; *(.sbss .sbss.* .bss .bss.* COMMON) . = ALIGN(16); bss_end = .; }
    stack_bottom = .;
    . += STACK;
    stack_top = .;
    heap_start = .;
    heap_end = heap_start + HEAP;
    /DISCARD/ : { *(.comment .note* .eh_frame* .riscv.attributes) }
}
