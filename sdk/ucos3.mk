# Rules that make a case of an application in C. The application's Makefile includes this file, and names the objects of an
# executable that has several:
#
#     include PATH/sdk/ucos3.mk
#     app.elf: filter.o memory.o
#
# `make app.case` compiles app.c, links app.elf, and puts app.lines behind it. memory.o has memcpy, memmove, memset and memcmp,
# which a compiler may call by itself. Other tools are named on the command line: CC="clang --target=riscv32" LD=ld.lld

UCOS3 := $(dir $(lastword $(MAKEFILE_LIST)))
CROSS ?= riscv64-unknown-elf-
ifeq ($(origin CC),default)
CC := $(CROSS)gcc
endif
ifeq ($(origin LD),default)
LD := $(CROSS)ld
endif
CFLAGS ?= -O2 -Wall -Wextra
LIBS ?=
vpath memory.c $(UCOS3)

# What the machine asks for. Linker relaxation is off, since LLVM's linker does not have it in every version.
UCOS3_CFLAGS = -march=rv32im -mabi=ilp32 -mcmodel=medlow -mno-relax -std=c11 -ffreestanding -nostdlib -fno-pic -fno-common \
               -fno-asynchronous-unwind-tables -I$(UCOS3)
# Without pages (-n) the file stays small; without debug lines (-S) it has the symbols that declarations name.
UCOS3_LDFLAGS = -m elf32lriscv -T $(UCOS3)ucos3.ld -n -S --no-relax

%.o: %.c $(UCOS3)ucos3.h
	$(CC) $(UCOS3_CFLAGS) $(CFLAGS) -c -o $@ $<

%.elf: %.o $(UCOS3)ucos3.ld
	$(LD) $(UCOS3_LDFLAGS) -o $@ $(filter %.o,$^) $(LIBS)

%.case: %.elf %.lines
	cat $^ > $@

.PRECIOUS: %.o %.elf
