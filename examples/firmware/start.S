/* From reset to main, the exceptions, and the switch between the bench's stack and the box's. */
    .section .text.start, "ax"
    .global _start
_start:
    mov     x0, #(3 << 20)          /* floats are there */
    msr     cpacr_el1, x0
    ldr     x0, =vectors
    msr     vbar_el1, x0
    ldr     x0, =bench_stack
    mov     sp, x0
    isb
    bl      machine_on
    bl      main
1:  b       1b

/* int run_on(void *stack, void (*box)(void)): runs the box on its own stack, until leave(answer) is called on it. */
    .text
    .global run_on
run_on:
    stp     x29, x30, [sp, #-160]!
    stp     x19, x20, [sp, #16]
    stp     x21, x22, [sp, #32]
    stp     x23, x24, [sp, #48]
    stp     x25, x26, [sp, #64]
    stp     x27, x28, [sp, #80]
    stp     d8, d9, [sp, #96]
    stp     d10, d11, [sp, #112]
    stp     d12, d13, [sp, #128]
    stp     d14, d15, [sp, #144]
    mov     x2, sp
    ldr     x3, =bench_at
    str     x2, [x3]
    mov     sp, x0
    br      x1

    .global leave
leave:
    ldr     x3, =bench_at
    ldr     x2, [x3]
    mov     sp, x2
    ldp     x19, x20, [sp, #16]
    ldp     x21, x22, [sp, #32]
    ldp     x23, x24, [sp, #48]
    ldp     x25, x26, [sp, #64]
    ldp     x27, x28, [sp, #80]
    ldp     d8, d9, [sp, #96]
    ldp     d10, d11, [sp, #112]
    ldp     d12, d13, [sp, #128]
    ldp     d14, d15, [sp, #144]
    ldp     x29, x30, [sp], #160
    ret

    .balign 8
bench_at:
    .quad   0

/* Exceptions of this level, on its own stack: a fault is told, an interrupt is handled; the handler leaves the float registers alone. */
    .balign 2048
vectors:
    .space  0x200
    b       fault
    .balign 0x80
    b       interrupted
    .balign 0x80
    b       fault
    .balign 0x80
    b       fault
    .balign 2048

interrupted:
    sub     sp, sp, #176
    stp     x0, x1, [sp]
    stp     x2, x3, [sp, #16]
    stp     x4, x5, [sp, #32]
    stp     x6, x7, [sp, #48]
    stp     x8, x9, [sp, #64]
    stp     x10, x11, [sp, #80]
    stp     x12, x13, [sp, #96]
    stp     x14, x15, [sp, #112]
    stp     x16, x17, [sp, #128]
    stp     x18, x29, [sp, #144]
    str     x30, [sp, #160]
    bl      interrupt
    ldp     x0, x1, [sp]
    ldp     x2, x3, [sp, #16]
    ldp     x4, x5, [sp, #32]
    ldp     x6, x7, [sp, #48]
    ldp     x8, x9, [sp, #64]
    ldp     x10, x11, [sp, #80]
    ldp     x12, x13, [sp, #96]
    ldp     x14, x15, [sp, #112]
    ldp     x16, x17, [sp, #128]
    ldp     x18, x29, [sp, #144]
    ldr     x30, [sp, #160]
    add     sp, sp, #176
    eret

fault:
    mrs     x0, esr_el1
    mrs     x1, elr_el1
    mrs     x2, far_el1
    bl      faulted
