#!/bin/sh
# Measures the program on texts of about 4 MiB: reading one that is refused at once, one that is refused on its last
# line, and listing, writing and running one that is accepted, each against `wc` and `sha256sum` on the same file.
# Half as large a text shows whether the time is linear. Prints a line a command, with the least time of seven calls.
# First build the program: (cd crates/ucos3 && rt run)
set -eu
cd "$(dirname "$0")/.."
. bench/built.sh
built ucos3

# The least number of nanoseconds that a command took on a file.
best() {
    file=$1
    shift
    least=
    for turn in 1 2 3 4 5 6 7; do
        before=$(date +%s%N)
        "$@" < "$file" > /dev/null || test $? -eq 3
        taken=$(($(date +%s%N) - before))
        if [ -z "$least" ] || [ "$taken" -lt "$least" ]; then least=$taken; fi
    done
    echo "$least"
}

# A text of so many constants, words of RAM and instructions, and a last line.
text() {
    awk -v names="$1" -v words="$2" -v code="$3" -v last="$4" 'BEGIN {
        for (i = 0; i < names; i++) print ".equ constant_" i ", " i
        print ".ram"
        for (i = 1; i <= words; i++) print ".word " i + 10000000
        print ".code\ngo:"
        for (i = 0; i < code - 1; i++) print "addi t0, t0, 1 # count"
        print "j go\n.task a, go, 10, 0, 0, 0x140000"
        print last
    }'
}

# Measures a command on a file.
measure() {
    file=$1
    shift
    took=$(best "$file" "$program" "$@")
    count=$(best "$file" wc)
    hash=$(best "$file" sha256sum)
    echo "$* on $(basename "$file"), $(wc -c < "$file") bytes: $((took / 1000)) us; wc ratio $((took * 100 / count))/100, sha256sum ratio $((took * 100 / hash))/100"
}

head -c 4194304 /dev/zero | tr '\0' '\n' > "$folder/line_feeds"
text 100000 65536 16384 "" > "$folder/whole"
text 50000 32768 8192 "" > "$folder/half"
text 100000 65536 16384 "nop nop" > "$folder/refused_at_the_end"
measure "$folder/line_feeds" run direct 1
measure "$folder/refused_at_the_end" run direct 1
measure "$folder/half" run direct 1
measure "$folder/whole" run direct 1
measure "$folder/half" list
measure "$folder/whole" list
measure "$folder/half" image
measure "$folder/whole" image
