/* SPDX-License-Identifier: MIT OR Apache-2.0 */
/* Entry of a bare program on `qemu-system-aarch64 -M virt`, at EL1. Each processor has a stack and runs with the MMU and its
 * caches on, without which exclusive accesses to memory needn't work: a map of blocks of 1 GiB, each at its own address,
 * device memory below 0x40000000 and normal write-back memory from there on. Floating point stays off, so that an
 * instruction which uses it is an exception. */
    .section .text.start, "ax"
    .global _start, start_of_second
_start:
    adrp x0, stack_of_first
    add sp, x0, :lo12:stack_of_first
    adrp x0, bss_start
    add x0, x0, :lo12:bss_start
    adrp x1, bss_end
    add x1, x1, :lo12:bss_end
1:  cmp x0, x1
    b.hs 2f
    stp xzr, xzr, [x0], #16
    b 1b
2:  bl mmu_on
    bl first
3:  wfi
    b 3b

start_of_second:
    adrp x0, stack_of_second
    add sp, x0, :lo12:stack_of_second
    bl mmu_on
    bl second
4:  wfi
    b 4b

mmu_on:
    ldr x0, =vectors
    msr vbar_el1, x0
    ldr x0, =0x04ff             /* MAIR: attribute 0 normal write-back, 1 device nGnRE */
    msr mair_el1, x0
    ldr x0, =0x200803519        /* TCR: T0SZ 25, 4 KiB, inner shareable write-back, 40 bits, no TTBR1 */
    msr tcr_el1, x0
    adrp x0, map
    add x0, x0, :lo12:map
    msr ttbr0_el1, x0
    msr cpacr_el1, xzr          /* floating point and vectors are exceptions */
    isb
    tlbi vmalle1
    dsb ish
    isb
    mrs x0, sctlr_el1
    orr x0, x0, #1              /* M: the MMU */
    orr x0, x0, #2              /* A: an access that isn't aligned is an exception */
    orr x0, x0, #4              /* C: data caches */
    orr x0, x0, #0x1000         /* I: instruction caches */
    msr sctlr_el1, x0
    isb
    ret

    .balign 2048
vectors:
    .rept 16
    .balign 128
    mrs x0, esr_el1
    mrs x1, elr_el1
    mrs x2, far_el1
    b fault
    .endr

    .data
    .balign 4096
map:
    .quad 0x00000000 | 0x405 | (1 << 54) | (1 << 53)    /* block, device, never executed */
    .quad 0x40000000 | 0x701                            /* block, normal, inner shareable */
    .zero 4096 - 16
