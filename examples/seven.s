# Exits with 7.
#
# riscv64-unknown-elf-as -march=rv64ima -mno-arch-attr seven.s -o seven.o && riscv64-unknown-elf-ld -s -N -Ttext=0x10000 seven.o -o seven.elf

    .globl _start
_start:
    li a0, 7
    li a7, 93
    ecall
