# Where a process begins: the stack pointer is set, all other registers are zero. It ends with what main returns.
        .section .text.start, "ax"
        .globl start
start:  call main
        li a7, 13           # exit
        ecall
