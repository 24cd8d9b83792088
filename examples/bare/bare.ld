/* SPDX-License-Identifier: MIT OR Apache-2.0 */
ENTRY(_start)
SECTIONS {
    . = 0x40080000;
    .text : { *(.text.start) *(.text .text.*) }
    .rodata : { *(.rodata .rodata.*) }
    .data.rel.ro : { *(.data.rel.ro .data.rel.ro.*) }
    .data : { *(.data .data.*) }
    .bss : ALIGN(16) {
        bss_start = .;
        *(.bss .bss.*) *(COMMON)
        . = ALIGN(16);
        bss_end = .;
    }
    .stacks (NOLOAD) : ALIGN(16) {
        . += 16K; stack_of_first = .;
        . += 16K; stack_of_second = .;
    }
    /DISCARD/ : { *(.comment) *(.note*) *(.eh_frame*) }
}
