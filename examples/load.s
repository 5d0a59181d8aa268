# Stores a 9 on the stack, loads it again, and exits with it.
#
# riscv64-unknown-elf-as -march=rv64ima -mno-arch-attr load.s -o load.o && riscv64-unknown-elf-ld -s -N -Ttext=0x10000 load.o -o load.elf

    .globl _start
_start:
    li t0, 9
    sd t0, -8(sp)
    ld a0, -8(sp)
    li a7, 93
    ecall
