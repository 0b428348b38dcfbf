#!/bin/sh
# Writes the rows of crates/rv32_isa/src/tests.rt: each line of tools/instructions.tsv is a line for an assembler
# and, after a tab, the instruction; the words are those of the GNU assembler's listing.
# Needs the Debian package binutils-riscv64-unknown-elf. The gate does not run this.
set -eu
cd "$(dirname "$0")"
work=$(mktemp -d)
trap 'rm -r "$work"' EXIT
cut -f1 instructions.tsv >"$work/lines.s"
cut -f2 instructions.tsv >"$work/instructions"
riscv64-unknown-elf-as -march=rv32im -mabi=ilp32 "$work/lines.s" -o "$work/lines.o"
riscv64-unknown-elf-objdump -d "$work/lines.o" | awk -F'\t' '/^ +[0-9a-f]+:/ { gsub(/ /, "", $2); print $2 }' >"$work/words"
paste "$work/words" "$work/instructions" | awk -F'\t' '{ printf "    (0x%s_%s, %s),\n", substr($1, 1, 4), substr($1, 5), $2 }'
