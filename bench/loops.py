#!/usr/bin/env python3
"""Writes loop8.s, loop800.s and loop4000.s: loops of so many random arithmetic instructions.

A small loop hides what a mispredicted branch of the interpreter costs, so there are large ones too. The numbers come
from a generator with a fixed seed (xorshift64), so the files are always the same.
"""

LENGTHS = {8: 4800, 800: 60, 4000: 12}  # instructions in the loop, and turns of it in multiples of 4,096

REGISTERS = ["t1", "t2", "t3", "t4", "t5", "t6", "s2", "s3", "s4", "s5", "s6", "s7", "a2", "a3", "a4", "a5"]

OPERATIONS = ["add", "sub", "and", "or", "xor", "addi"]


class Random:
    def __init__(self, seed):
        self.state = seed

    def below(self, count):
        state = self.state
        state ^= state << 13 & 0xFFFF_FFFF_FFFF_FFFF
        state ^= state >> 7
        state ^= state << 17 & 0xFFFF_FFFF_FFFF_FFFF
        self.state = state
        return (state >> 32) % count

    def of(self, items):
        return items[self.below(len(items))]


def instruction(random):
    name = random.of(OPERATIONS)
    second = random.below(4096) - 2048 if name == "addi" else random.of(REGISTERS)
    return f"    {name} {random.of(REGISTERS)}, {random.of(REGISTERS)}, {second}\n"


def program(length, turns):
    random = Random(88172645463325252 + length)
    text = f"# Written by loops.py: {4096 * turns} turns of a loop of {length} instructions.\n\n"
    text += '    .section .text.start, "ax"\n    .globl _start\n_start:\n'
    for register in REGISTERS:
        text += f"    li {register}, {random.below(2048)}\n"
    text += f"    lui t0, {turns}\n"
    text += "turn:\n"
    for _ in range(length):
        text += instruction(random)
    text += "    addi t0, t0, -1\n    beqz t0, done\n    j turn\n"
    text += "done:\n    li a0, 0\n    li a7, 93\n    ecall\n"
    return text


for length, turns in LENGTHS.items():
    with open(f"loop{length}.s", "w", encoding="utf-8") as file:
        file.write(program(length, turns))
