.intel_syntax noprefix
.text
.globl chain2
chain2:
    xor rax, rax
    mov rax, qword ptr [rsi]
    mov rcx, qword ptr [rsi + 16]
    adcx rax, qword ptr [rdx]
    adox rcx, qword ptr [rdx + 16]
    mov qword ptr [rdi], rax
    mov qword ptr [rdi + 16], rcx
    mov rax, qword ptr [rsi + 8]
    mov rcx, qword ptr [rsi + 24]
    adcx rax, qword ptr [rdx + 8]
    adox rcx, qword ptr [rdx + 24]
    mov qword ptr [rdi + 8], rax
    mov qword ptr [rdi + 24], rcx
    ret
