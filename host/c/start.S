/* From the entry of a 64-bit Arm machine at EL1 to bare_main: floating-point and vector registers switched off, so that whatever uses one is
   stopped; memory from 0x40000000 on mapped as it is and cached, since compiled code may load across the natural boundaries, which memory that is
   not mapped does not allow; then a stack. */
    .section .text.start, "ax"
    .global _start
_start:
    msr     cpacr_el1, xzr
    mov     x0, #0xff
    msr     mair_el1, x0
    ldr     x0, =0x803519               /* 39 bits of address, 4 KB pages, cached, inner shareable, no upper half */
    msr     tcr_el1, x0
    adr     x0, map
    msr     ttbr0_el1, x0
    isb
    mrs     x0, sctlr_el1
    mov     x1, #0x1005                 /* mapped, data and instructions cached */
    orr     x0, x0, x1
    msr     sctlr_el1, x0
    isb
    adr     x0, stack
    add     x0, x0, #0x10000
    mov     sp, x0
    bl      bare_main
1:  wfe
    b       1b

    .section .data
    .balign 4096
map:
    .quad   0
    .quad   0x40000701                  /* the second gigabyte, as it is */
    .fill   510, 8, 0
    .balign 16
stack:
    .fill   0x10000, 1, 0
