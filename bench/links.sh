#!/bin/sh
# Measures a link made and removed: a task that joins a ready list and leaves it, among 2 tasks and among 60, linked by numbers and by
# raw pointers. Prints for each the processor's instructions, by callgrind, as the difference of runs of 20,000 and of 10,000, and the
# ratio to the first. Callgrind counts do not shake with the load of the machine.
# First build the program: (cd crates/bench_parts && rt run). Needs valgrind.
set -eu
cd "$(dirname "$0")/.."
. bench/built.sh
built bench_parts
command -v valgrind >/dev/null || { echo "valgrind is not installed" >&2; exit 1; }

# The instructions of a run.
instructions() {
    valgrind --tool=callgrind --callgrind-out-file="$folder/out" "$program" "$1" "$2" 2>&1 >/dev/null | sed -n 's/.*Collected : //p'
}

first=
for part in links-number-2 links-number-60 links-pointer-2 links-pointer-60; do
    few=$(instructions "$part" 10000)
    many=$(instructions "$part" 20000)
    if [ -z "$first" ]; then first=$((many - few)); fi
    echo "$part: $(((many - few + 5000) / 10000)) instructions, ratio $(((many - few) * 100 / first))/100"
done
