// int add(int a, int b), for x86-64
    .text
    .globl add
    .type add, @function
add:
    leal (%rdi,%rsi), %eax
    ret
    .size add, .-add
    .section .note.GNU-stack,"",@progbits
