# Each core adds one to a shared doubleword, by a load and a store, and exits with what it loaded. No
# two cores exit with the same number, unless one loads before another has stored.
#
# riscv64-unknown-elf-as -march=rv64ima -mno-arch-attr race.s -o race.o &&
#     riscv64-unknown-elf-ld -s -N -Ttext=0x10000 race.o -o race.elf

    .globl _start
_start:
    lui x5, 0x11                    # memory behind the program, which is 0 at the start
    ld x10, 0(x5)
    addi x6, x10, 1
    sd x6, 0(x5)
    li x17, 93                      # exit
    ecall
