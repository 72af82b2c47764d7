# The console's first step, and its timer's interrupt. boot.s has what comes before, console.ld the bounds of the driver's code.
    .text
    .global guest_main
guest_main:
    call sse_on                     # compiled code uses SSE registers, from its first instruction on
    jmp console_main

# On the stack that it meets. It needs one register and saves fifteen, as an interrupt of a larger console would: with the processor's five words that is more
# than a red zone has, so that code which keeps one would come out wrong. It counts itself, and whether it met the driver.
    .global timer_entry
timer_entry:
    .irp register, rax, rcx, rdx, rbx, rbp, rsi, rdi, r8, r9, r10, r11, r12, r13, r14, r15
    push %\register
    .endr
    mov 120(%rsp), %rax             # where the program stood
    cmp $archive_start, %rax
    jb 1f
    cmp $archive_end, %rax
    jae 1f
    incq timer_inside
1:  incq timer_ticks
    mov $0xfee000b0, %eax           # the local APIC: the interrupt is over
    movl $0, (%rax)
    .irp register, r15, r14, r13, r12, r11, r10, r9, r8, rdi, rsi, rbp, rbx, rdx, rcx, rax
    pop %\register
    .endr
    iretq

    .global spurious_entry
spurious_entry:
    iretq

    .bss
    .align 8
    .global timer_ticks
timer_ticks: .skip 8
    .global timer_inside
timer_inside: .skip 8
