# A guest's first steps on x86-64: from the PVH entry (QEMU's -kernel; 32 bits, paging off) to guest_main in long mode, with the first 4 GiB mapped to
# themselves, a table of interrupts whose 32 exceptions go to guest_trapped, interrupts off and SSE off. AT&T syntax, for gcc, clang and Rust's global_asm!.
#
# It calls guest_main(start), with PVH's record of what there is, and guest_trapped(number, error, address), on a stack of its own; neither may return.
# It offers gate(number, entry, stack), who takes an interrupt, on the stack that it meets (0) or on that of the exceptions (1); and sse_on().

    .section .note.Xen, "a", @note
    .align 4
    .long 4, 8, 18                  # lengths of name and value; 18: the 32-bit entry
    .asciz "Xen"
    .quad guest_start

    .section .boot, "ax"
    .code32
    .global guest_start
guest_start:
    cli
    cld
    mov %ebx, %ebp                  # PVH's record
    mov $directories, %eax          # one table of four, each of a GiB in pages of 2 MiB
    or $3, %eax
    xor %ecx, %ecx
1:  mov %eax, gigabytes(, %ecx, 8)
    add $0x1000, %eax
    inc %ecx
    cmp $4, %ecx
    jne 1b
    mov $gigabytes, %eax
    or $3, %eax
    mov %eax, top_table
    mov $0x83, %eax                 # present, writable, 2 MiB
    xor %ecx, %ecx
2:  cmp $2040, %ecx                 # the last 16 MiB hold the local APIC: not cached
    jne 3f
    or $0x18, %eax
3:  mov %eax, directories(, %ecx, 8)
    add $0x200000, %eax
    inc %ecx
    cmp $2048, %ecx
    jne 2b
    mov %cr4, %eax
    or $0x20, %eax                  # PAE
    mov %eax, %cr4
    mov $top_table, %eax
    mov %eax, %cr3
    mov $0xc0000080, %ecx           # EFER
    rdmsr
    or $0x100, %eax                 # long mode
    wrmsr
    mov %cr0, %eax
    and $0x9fffffff, %eax           # caches on
    or $0x80000001, %eax            # paging, protection
    mov %eax, %cr0
    lgdt segments_at
    ljmp $8, $long_mode

    .code64
long_mode:
    mov $16, %eax
    mov %eax, %ds
    mov %eax, %es
    mov %eax, %ss
    mov $guest_stack_top, %rsp
    mov $task, %eax                 # the task segment's base, in the places that it has in a descriptor
    mov %ax, task_segment + 2
    shr $16, %eax
    mov %al, task_segment + 4
    mov %ah, task_segment + 7
    mov $24, %eax
    ltr %ax
    xor %ebx, %ebx
4:  mov %ebx, %edi
    mov %ebx, %esi
    shl $4, %esi
    add $exceptions, %esi
    mov $1, %edx
    call gate
    inc %ebx
    cmp $32, %ebx
    jne 4b
    lidt interrupts_at
    mov %ebp, %edi
    xor %ebp, %ebp
    call guest_main
5:  cli
    hlt
    jmp 5b

    .text
    .global gate
gate:
    mov %edi, %edi
    shl $4, %rdi
    mov %si, interrupts(%rdi)
    movw $8, interrupts + 2(%rdi)
    mov %dl, interrupts + 4(%rdi)
    movb $0x8e, interrupts + 5(%rdi) # present, interrupts off
    shr $16, %rsi
    mov %si, interrupts + 6(%rdi)
    shr $16, %rsi
    mov %esi, interrupts + 8(%rdi)
    ret

    .global sse_on
sse_on:
    mov %cr0, %rax
    and $-13, %rax                  # EM, TS off
    or $2, %rax                     # MP
    mov %rax, %cr0
    mov %cr4, %rax
    or $0x600, %rax                 # OSFXSR, OSXMMEXCPT
    mov %rax, %cr4
    ret

# One entry to an exception, 16 bytes each: it pushes a 0 where the processor pushes no error, and the number.
    .altmacro
    .macro exception number
    .align 16
    .if (\number == 8) || ((\number >= 10) && (\number <= 14)) || (\number == 17) || (\number == 21) || (\number == 29) || (\number == 30)
    .else
    push $0
    .endif
    push $\number
    jmp trapped
    .endm

    .align 16
exceptions:
    .set number, 0
    .rept 32
    exception %number
    .set number, number + 1
    .endr
trapped:
    pop %rdi
    pop %rsi
    mov (%rsp), %rdx
    and $-16, %rsp
    cld
    call guest_trapped
6:  cli
    hlt
    jmp 6b

    .data
    .align 8
segments:
    .quad 0
    .quad 0x00af9a000000ffff        # 8: code of 64 bits
    .quad 0x00cf92000000ffff        # 16: data
task_segment:                       # 24
    .quad 0x0000890000000067
    .quad 0
segments_at:
    .word segments_at - segments - 1
    .quad segments
interrupts_at:
    .word 4095
    .quad interrupts
task:
    .skip 36
    .quad trap_stack_top            # stack 1 of a gate
    .skip 60

    .bss
    .align 4096
top_table: .skip 4096
gigabytes: .skip 4096
directories: .skip 4 * 4096
interrupts: .skip 4096
    .skip 4096
trap_stack_top:
    .global guest_stack
guest_stack:
    .skip 262144
    .global guest_stack_top
guest_stack_top:
