/* A program in RAM of 1 MiB from address 0, where the machine starts. The stack begins at the end of RAM. */
OUTPUT_FORMAT("elf32-sparc")
OUTPUT_ARCH(sparc)

MEMORY
{
    RAM (rwx) : ORIGIN = 0, LENGTH = 1M
}

_stack_end = ABSOLUTE(ORIGIN(RAM) + LENGTH(RAM));

SECTIONS
{
    .text 0 : { KEEP(*(.traps)) *(.text .text.*) } > RAM
    .rodata : { *(.rodata .rodata.*) } > RAM
    .data : { *(.data .data.* .sdata .sdata.*) } > RAM
    .bss : { *(.bss .bss.* .sbss .sbss.* COMMON) } > RAM

    /DISCARD/ : { *(.note.* .comment .eh_frame .eh_frame_hdr .gnu.attributes) }
}
