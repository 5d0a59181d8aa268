# Start code: from the first instruction to main, and from main to exit. A core starts here with its
# number in a0, the number of cores in a1, and sp at the end of its own stack. Both numbers go to main
# as its arguments, and what main returns is the number with which the core exits.
#
# tp keeps the core's number (core_number in zsim.h), where no library is linked that has thread-local
# storage: `call_main` is `main` then (plain.ld), and else in library_start.s. Memory outside the file's
# bytes is 0 at the start, so bss need not be cleared, and no core has to wait for another to do it.

    .section .text.start, "ax"
    .globl _start
_start:
    .option push
    .option norelax                 # gp is not there yet
    la gp, __global_pointer$
    .option pop
    mv tp, a0
    .weak call_main
    call call_main
    li a7, 93                       # exit
    ecall
