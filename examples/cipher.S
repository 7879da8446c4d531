# The letters of a text from a cipher text and its key: a sum for each letter, as many at once as a vector register holds.
# docs/DEBUGGING.md watches the sum at work.
    .globl _start
_start:
    la       a0, cipher
    la       a1, key
    la       a2, text
    li       a3, 16             # letters
next:
    vsetvli  a4, a3, e8, m1, ta, ma
    vle8.v   v1, (a0)
    vle8.v   v2, (a1)
    vadd.vv  v3, v1, v2
    vse8.v   v3, (a2)
    add      a0, a0, a4
    add      a1, a1, a4
    add      a2, a2, a4
    sub      a3, a3, a4
    bnez     a3, next
    li       a0, 1              # the output
    la       a1, text
    li       a2, 16
    li       a7, 64             # write
    ecall
    li       a0, 0
    li       a7, 93             # exit
    ecall

    .section .rodata
cipher:
    .byte 'h'-3, 'e'-1, 'l'-4, 'l'-1, 'o'-5, ','-9, ' '-2, 'c'-6, 'o'-5, 'l'-3, 'u'-5, 'm'-8, 'n'-9, 's'-7, '!'-9, '\n'-3
key:
    .byte 3, 1, 4, 1, 5, 9, 2, 6, 5, 3, 5, 8, 9, 7, 9, 3

    .bss
text:
    .zero 16
