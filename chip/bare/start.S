# The first instructions: QEMU begins here (PVH), on one processor with 32 bits. Maps the first 4 GiB as they are, goes
# to 64 bits with SSE on, and calls main.
    .section .note.xen, "a", @note
    .p2align 2
    .long 4, 8, 18
    .asciz "Xen"
    .quad start

    .bss
    .p2align 12
tables_4:
    .skip 4096
tables_3:
    .skip 4096
tables_2:
    .skip 4 * 4096
    .skip 256 * 1024
stack:

    .section .rodata
    .p2align 3
segments:
    .quad 0, 0x00af9b000000ffff
segments_end:
segments_at:
    .word segments_end - segments - 1
    .long segments

    .text
    .code32
    .globl start
start:
    cld
    mov $stack, %esp
    mov $tables_2, %edi             # pages of 2 MiB: present, written, large
    mov $0x83, %eax
    mov $2048, %ecx
1:  mov %eax, (%edi)
    add $0x200000, %eax
    add $8, %edi
    loop 1b
    mov $tables_3, %edi
    mov $tables_2 + 3, %eax
    mov $4, %ecx
2:  mov %eax, (%edi)
    add $4096, %eax
    add $8, %edi
    loop 2b
    movl $tables_3 + 3, tables_4
    mov $tables_4, %eax
    mov %eax, %cr3
    mov %cr4, %eax                  # PAE, and SSE's state
    or $0x620, %eax
    mov %eax, %cr4
    mov $0xc0000080, %ecx           # EFER: long mode
    rdmsr
    or $0x100, %eax
    wrmsr
    mov %cr0, %eax                  # paging, and SSE without an emulation
    and $0xfffffffb, %eax
    or $0x80000003, %eax
    mov %eax, %cr0
    lgdt segments_at
    ljmp $8, $long_mode

    .code64
long_mode:
    xor %eax, %eax
    mov %eax, %ds
    mov %eax, %es
    mov %eax, %ss
    call main
3:  hlt
    jmp 3b

    .section .note.GNU-stack, "", @progbits
