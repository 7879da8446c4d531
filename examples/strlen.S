# The length of a text that ends with a zero byte, and the text written to the output by that length. The load stops before
# the first byte that cannot be read (vle8ff), so it may run past the end of the text without a trap.
    .globl _start
_start:
    la   a0, text
    call vector_strlen
    mv   a2, a0
    la   a1, text
    li   a0, 1
    li   a7, 64             # write
    ecall
    mv   a0, a2             # the length is the status
    li   a7, 93             # exit
    ecall

# The length of the text at a0.
vector_strlen:
    mv       a3, a0
next:
    vsetvli  a1, x0, e8, m8, ta, ma
    vle8ff.v v8, (a3)
    csrr     a1, vl         # the bytes that were loaded
    vmseq.vi v0, v8, 0
    vfirst.m a2, v0
    add      a3, a3, a1
    bltz     a2, next
    sub      a3, a3, a1     # where the last load began
    add      a3, a3, a2     # where the zero lies
    sub      a0, a3, a0
    ret

    .section .rodata
text:
    .asciz "Where is the end of this text? A search for zero in all bytes of a load finds it.\n"
