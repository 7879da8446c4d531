# The entry of an example in C: calls main, and exits with what it returns. The stack is set up by the machine.
    .globl _start
_start:
    call main
    li   a7, 93             # exit
    ecall
