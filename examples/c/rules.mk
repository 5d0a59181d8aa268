# How the C programs of a folder are built, with Debian's gcc-riscv64-unknown-elf and
# picolibc-riscv64-unknown-elf. A Makefile sets PROGRAMS and includes this.
#
#   make            builds all executables
#   make NAME.elf   builds one, from NAME.c. CORES=N, STACK=N and MEMORY=N check that the stacks of so
#                   many cores, of so many bytes each, have room in a memory of so many bytes.
#                   LIBRARY=1 links library.c where nothing asks for it that the linker sees
#   make NAME.symbols   links the same once more with its symbols and lines, which zsim-tools reads
#   make try        runs all under qemu-riscv64 (Debian's qemu-user)
#   make clean      removes what was built in between

# The start code, the headers and the linker script stand beside this file.
EXAMPLES := $(patsubst %/,%,$(dir $(lastword $(MAKEFILE_LIST))))
HEADERS = $(addprefix $(EXAMPLES)/,zsim.h cores.h numbers.h)

CC = riscv64-unknown-elf-gcc
CFLAGS = -std=c11 -O2 -ffreestanding -march=rv64ima -mabi=lp64 -mcmodel=medany \
    --specs=picolibc.specs -Wall -Wextra -Wno-main -I $(EXAMPLES)
# Debian has no libraries for rv64ima with lp64: those for rv64im have no atomics of their own.
LDFLAGS = -march=rv64im -mabi=lp64 --specs=picolibc.specs -nostartfiles -static -s \
    -T $(EXAMPLES)/plain.ld

all: $(PROGRAMS:%=%.elf)

# What the linker script is told of the machine.
SIZES = $(CORES:%=-Wl,--defsym=cores=%) $(STACK:%=-Wl,--defsym=stack=%) \
    $(MEMORY:%=-Wl,--defsym=memory=%) $(LIBRARY:%=-Wl,-u,sbrk)

# (a program that is there is linked again where its machine is named)
%.elf: start.o %.o library.a $(EXAMPLES)/plain.ld $(if $(CORES)$(STACK)$(MEMORY)$(LIBRARY),again)
	$(CC) $(LDFLAGS) $(SIZES) start.o $*.o -Wl,--start-group library.a -lc -Wl,--end-group -o $@

# The same instructions and data at the same addresses, and what tells of them.
%.symbols: start.o %.lines.o library.a $(EXAMPLES)/plain.ld again
	$(CC) $(filter-out -s,$(LDFLAGS)) $(SIZES) start.o $*.lines.o -Wl,--start-group library.a -lc -Wl,--end-group -o $@

%.lines.o: %.c $(HEADERS)
	$(CC) $(CFLAGS) -g -c $< -o $@

# One object, so that either all of it is linked or nothing.
library.a: library.o library_start.o
	$(CC) -r -nostdlib -march=rv64ima -mabi=lp64 $^ -o library_whole.o
	riscv64-unknown-elf-ar rcs $@ library_whole.o

library.o: $(EXAMPLES)/library.c $(HEADERS)
	$(CC) $(CFLAGS) -ftls-model=local-exec -c $< -o $@

library_start.o: $(EXAMPLES)/library_start.s
	$(CC) -march=rv64ima -mabi=lp64 -c $< -o $@

%.o: %.c $(HEADERS)
	$(CC) $(CFLAGS) -c $< -o $@

start.o: $(EXAMPLES)/start.s
	$(CC) -march=rv64ima -mabi=lp64 -c $< -o $@

try: all
	@for name in $(PROGRAMS); do \
	    echo "== $$name"; \
	    qemu-riscv64 $$name.elf; \
	    echo "exit $$?"; \
	done

clean:
	rm -f *.o *.a *.symbols

again:

.PHONY: all try clean again
.PRECIOUS: %.o
