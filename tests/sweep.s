# The two interrupts of tests/sweep.c, and a function that both must be able to see.
    .text

# After each instruction, on a stack of its own, so that it disturbs nothing: step(frame) looks where the program stands.
    .global step_entry
step_entry:
    push %rax
    push %rcx
    push %rdx
    push %rbx
    push %rbp
    push %rsi
    push %rdi
    push %r8
    push %r9
    push %r10
    push %r11
    push %r12
    push %r13
    push %r14
    push %r15
    lea 120(%rsp), %rdi
    cld
    call step
    pop %r15
    pop %r14
    pop %r13
    pop %r12
    pop %r11
    pop %r10
    pop %r9
    pop %r8
    pop %rdi
    pop %rsi
    pop %rbp
    pop %rbx
    pop %rdx
    pop %rcx
    pop %rax
    iretq

# The interrupt, on the stack that it meets. It leaves noise in all of the 512 bytes below the pointer that it met, also where the processor's five words stood
# (what they hold may by chance be what was there): it moves them down, and returns by the copy.
    .global interrupt_entry
interrupt_entry:
    sub $512, %rsp
    push %rsi
    push %rdi
    push %rcx
    push %rax
    lea 32 + 512(%rsp), %rsi
    lea 32(%rsp), %rdi
    mov $5, %ecx
    cld
    rep movsq
    mov -40(%rdi), %rax             # of the five words the first, the address
    mov %rax, interrupt_met
    incl interrupts_taken
    mov -16(%rdi), %rcx             # the fourth, the stack pointer
    sub %rdi, %rcx
    mov interrupt_noise, %al
    rep stosb
    mov $0xfee000b0, %eax           # the local APIC: this interrupt is done
    movl $0, (%rax)
    pop %rax
    pop %rcx
    pop %rdi
    pop %rsi
    iretq

# Keeps two numbers below its stack pointer, at both ends of a red zone, and gives their sum. An interrupt before its second, third or fourth instruction
# overwrites one of them, before its first or last none.
    .global keeps_below, keeps_below_end
keeps_below:
    mov %rdi, -128(%rsp)
    mov %rsi, -8(%rsp)
    mov -8(%rsp), %rax
    add -128(%rsp), %rax
    ret
keeps_below_end:

    .bss
    .align 8
    .global interrupt_met, interrupts_taken, interrupt_noise
interrupt_met: .skip 8
interrupts_taken: .skip 4
interrupt_noise: .skip 1
