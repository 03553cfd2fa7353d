# Loops whose instructions test_bounds.py counts: behind the first of some that follow one another stands how many they are.
    .text
    .globl nested, entered_twice, caller, calling, leaf, left_early, ended_elsewhere, endless
    .type nested, @function
    .type entered_twice, @function
    .type caller, @function
    .type calling, @function
    .type leaf, @function
    .type left_early, @function
    .type ended_elsewhere, @function
    .type endless, @function
nested:
    mov $4, %ecx            # 1
1:  mov $6, %edx            # 1, of the outer loop
2:  add (%rdi), %rax        # 3, of the inner loop
    dec %edx
    jnz 2b
    dec %ecx                # 2, of the outer loop
    jnz 1b
    div %rsi                # 2
    ret
entered_twice:
    test %edi, %edi         # 2
    je 4f
3:  dec %esi                # 2, of the loop: its first entry
    jz 5f
4:  inc %eax                # 2, of the loop: its second entry
    jmp 3b
5:  ret                     # 1
caller:
    push %rbx               # 4
    call entered_twice
    pop %rbx
    ret
leaf:
    mov %edi, %eax          # 3
    add $7, %eax
    ret
calling:
    mov $4, %ecx            # 1
6:  test $1, %ecx           # 4 of the loop, with the call
    je 7f
    call leaf
7:  loop 6b
    ret                     # 1
left_early:
    mov $4, %ecx            # 1
8:  dec %ecx                # 2, of the loop: where it is left as a rule
    jz 9f
    cmp %edi, %ecx          # 2, of the loop: where it is left early
    je 10f
    add (%rsi), %rax        # 4, of the loop: its way back
    add $4, %rsi
    inc %rax
    jmp 8b
9:  neg %rax                # 7, behind the loop as a rule
    neg %rax
    neg %rax
    neg %rax
    neg %rax
    neg %rax
    ret
10: neg %rax                # 2, behind the loop early
    ret
ended_elsewhere:
    dec %edi                # 3, of the loop, which is left for another function
    jz leaf
    jmp ended_elsewhere
endless:
    jmp endless             # 1
