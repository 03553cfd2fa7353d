# Wraps calls by `ld --wrap`: before a call the stack below it is painted, and after it the lowest byte that isn't paint any more tells
# how much was taken, with the return address. scripts/house try bounds adds a line `wrapped NAME` for each call, and paint_calls.c prints the
# most of each.
    .set BYTES, 1 << 17
    .set PAINT, 0xa5

    .macro wrapped name
    .globl __wrap_\name
    .type __wrap_\name, @function
__wrap_\name:
    push %rbp
    mov %rsp, %rbp
    push %rdi
    push %rcx
    lea -BYTES(%rbp), %rdi
    mov $BYTES-16, %ecx
    mov $PAINT, %al
    rep stosb
    pop %rcx
    pop %rdi
    movabs $0xa5a5a5a5a5a5a5a5, %rax
    mov %rax, -8(%rsp)
    mov %rax, -16(%rsp)
    call __real_\name
    lea -BYTES(%rbp), %rdi
    mov $BYTES, %ecx
1:  cmpb $PAINT, (%rdi)
    jne 2f
    inc %rdi
    dec %ecx
    jnz 1b
2:  cmp most_\name(%rip), %rcx
    jbe 3f
    mov %rcx, most_\name(%rip)
3:  leave
    ret
    .local most_\name
    .comm most_\name, 8, 8
    .section painted, "aw"
    .quad name_\name, most_\name
    .section .rodata
name_\name:
    .string "\name"
    .text
    .endm

    .section .note.GNU-stack, "", @progbits
    .text
