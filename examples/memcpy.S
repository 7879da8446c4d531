# Copies a text, eight registers at a time, and writes the copy to the output.
    .globl _start
_start:
    la   a0, copy
    la   a1, text
    la   a2, text_end
    sub  a2, a2, a1
    mv   s0, a2
    call vector_memcpy
    li   a0, 1
    la   a1, copy
    mv   a2, s0
    li   a7, 64             # write
    ecall
    li   a0, 0
    li   a7, 93             # exit
    ecall

# Copies a2 bytes from a1 to a0.
vector_memcpy:
    vsetvli t0, a2, e8, m8, ta, ma
    vle8.v  v8, (a1)
    vse8.v  v8, (a0)
    add     a0, a0, t0
    add     a1, a1, t0
    sub     a2, a2, t0
    bnez    a2, vector_memcpy
    ret

    .section .rodata
text:
    .ascii "An associative memory is searched by what it holds, and not by where it holds it.\n"
    .ascii "Each search compares all columns with a key at once; each update writes one bit\n"
    .ascii "into a row, in all columns that matched.\n"
text_end:

    .bss
copy:
    .space 512
