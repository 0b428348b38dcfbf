#!/bin/sh
# Measures how the time of a run grows with the interrupts that wait: a task that counts for 1,000,000 steps, with one and with
# 16,384 recorded interrupts that have not come, with 16,384 that enter one after another, and with as many at one moment. The
# cases take turns. Prints a line for each: the least time of fifteen runs without that of reading the case, and its ratio to the
# first case.
# First build the program: (cd crates/ucos3 && rt run)
set -eu
cd "$(dirname "$0")/.."
. bench/built.sh
built ucos3

# A case with so many interrupts, the first at a moment in raw steps and each of the others so many steps later.
text() {
    printf '.code\ngo: addi s0, s0, 1\nj go\nhandler: ret\n.task a, go, 10, 0, 0, 0x140000\n.vector 1, 1, handler, 0x13f000\n.inject\n'
    awk -v count="$1" -v from="$2" -v apart="$3" 'BEGIN { for (i = 0; i < count; i++) printf "step %.0f, 1\n", from + i * apart }'
}

# Runs a case to so many task steps, and keeps the least number of nanoseconds that it took.
run() {
    before=$(date +%s%N)
    "$program" run direct "$2" < "$folder/$1" > /dev/null
    taken=$(($(date +%s%N) - before))
    kept=$folder/$1.$2
    if [ ! -e "$kept" ] || [ "$taken" -lt "$(cat "$kept")" ]; then echo "$taken" > "$kept"; fi
}

cases="one_waits all_wait all_enter all_at_once"
text 1 4000000000 1 > "$folder/one_waits"
text 16384 4000000000 1 > "$folder/all_wait"
text 16384 10 60 > "$folder/all_enter"
text 16384 10 0 > "$folder/all_at_once"
for turn in 1 2 3 4 5 6 7 8 9 10 11 12 13 14 15; do
    for case in $cases; do
        run "$case" 0
        run "$case" 1000000
    done
done
first=
for case in $cases; do
    took=$(($(cat "$folder/$case.1000000") - $(cat "$folder/$case.0")))
    if [ -z "$first" ]; then first=$took; fi
    echo "$case: $((took / 1000)) us, ratio $((took * 100 / first))/100"
done
