/* uint64_t on_stack(void *top, void (*call)(void), const uint64_t words[10]): calls with ten words, on the stack that ends at top, and returns what the
   call returns. The words that do not go in registers stand just below top: the last four on x86-64, the last two on Arm. */
    .text
    .global on_stack
    .type on_stack, %function
on_stack:
#if defined(__x86_64__)
    push    %rbp
    mov     %rsp, %rbp
    mov     %rdi, %rsp
    mov     %rsi, %rax
    mov     %rdx, %r10
    push    72(%r10)
    push    64(%r10)
    push    56(%r10)
    push    48(%r10)
    mov     (%r10), %rdi
    mov     8(%r10), %rsi
    mov     16(%r10), %rdx
    mov     24(%r10), %rcx
    mov     32(%r10), %r8
    mov     40(%r10), %r9
    call    *%rax
    mov     %rbp, %rsp
    pop     %rbp
    ret
#elif defined(__aarch64__)
    stp     x29, x30, [sp, #-16]!
    mov     x29, sp
    mov     sp, x0
    mov     x9, x1
    mov     x10, x2
    ldp     x0, x1, [x10, #64]
    stp     x0, x1, [sp, #-16]!
    ldp     x0, x1, [x10]
    ldp     x2, x3, [x10, #16]
    ldp     x4, x5, [x10, #32]
    ldp     x6, x7, [x10, #48]
    blr     x9
    mov     sp, x29
    ldp     x29, x30, [sp], #16
    ret
#else
#error "another machine"
#endif
#if defined(__linux__)
    .section .note.GNU-stack, "", %progbits
#endif
