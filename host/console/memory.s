# The memory functions that a guest with no library owes its compiler and the archive. Eight bytes at a time, then the rest.
    .text
    .global memset
memset:
    mov %rdi, %r8
    movzbl %sil, %esi
    mov $0x0101010101010101, %rax
    imul %rsi, %rax
    mov %rdx, %rcx
    shr $3, %rcx
    rep stosq
    mov %edx, %ecx
    and $7, %ecx
    rep stosb
    mov %r8, %rax
    ret

    .global memcpy
memcpy:
    mov %rdi, %rax
    mov %rdx, %rcx
    shr $3, %rcx
    rep movsq
    mov %edx, %ecx
    and $7, %ecx
    rep movsb
    ret

    .global memmove
memmove:
    mov %rdi, %rax
    sub %rsi, %rax
    cmp %rdx, %rax                  # unsigned: the target begins inside the source
    jae memcpy
    mov %rdi, %rax
    mov %rdx, %rcx
    lea -1(%rdi, %rdx), %rdi
    lea -1(%rsi, %rdx), %rsi
    std
    rep movsb
    cld
    ret

    .global memcmp
    .global bcmp
memcmp:
bcmp:
    mov %rdx, %rcx
    shr $3, %rcx
    cmp %eax, %eax                  # equal, where there are no eight
    repe cmpsq
    mov %edx, %ecx
    jne 1f
    and $7, %ecx                    # sets "equal" where no byte is left
    jmp 2f
1:  mov $8, %ecx                    # the first byte that differs is among the last eight
    sub %rcx, %rsi
    sub %rcx, %rdi
2:  repe cmpsb
    mov $0, %eax
    je 3f
    movzbl -1(%rdi), %eax
    movzbl -1(%rsi), %ecx
    sub %ecx, %eax
3:  ret
