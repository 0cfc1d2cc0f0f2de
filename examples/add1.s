.intel_syntax noprefix
.text
.globl add1
add1:
    mov rax, rdx
    add rsi, -1
    adc rax, rcx
    mov qword ptr [rdi], rax
    mov rcx, 0
    adc rcx, 0
    mov qword ptr [rdi + 8], rcx
    ret
