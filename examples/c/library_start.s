# Comes between the start code and main where the library is linked (library.c): gives the core its
# thread-local storage, at the end of its stack, and calls main. From here on tp is the address of that
# storage, and the core's number stands 16 bytes before it (core_number in zsim.h).
#
# Memory is 0 at the start, so only what does not begin as 0 is copied.

    .text
    .globl library_start, call_main
library_start:
call_main:
    addi sp, sp, -16
    sd ra, 0(sp)
    sd s0, 8(sp)
    mv s0, sp
    la t0, thread_storage           # (a number of bytes, and so are the others of plain.ld)
    sub sp, sp, t0
    sd tp, 0(sp)
    addi tp, sp, 16
    la t0, thread_data
    la t1, thread_data_end
    mv t2, tp
1:  bgeu t0, t1, 2f
    lbu t3, 0(t0)
    sb t3, 0(t2)
    addi t0, t0, 1
    addi t2, t2, 1
    j 1b
2:  call main
    call exit                       # (which writes what files still hold; it does not return)
