#!/bin/sh
# Holds the program to its budget in instructions of the processor, which other work on the machine does not change: for each case the
# instructions of one task step, as the difference of a run to 150,000 task steps and one to 50,000, divided by 100,000; and for texts
# that are read and listed the instructions of the whole process, and the most memory that it takes at once. Holds the deferred method
# to the direct one, and ticks with many delayed tasks to ticks with one. Prints a line for each case, and fails where one is above its
# budget. Needs valgrind and /usr/bin/time. First build the program: (cd crates/ucos3 && rt run)
set -eu
cd "$(dirname "$0")/.."
. bench/built.sh
built ucos3
command -v valgrind > /dev/null || { echo "no valgrind here" >&2; exit 1; }
test -x /usr/bin/time || { echo "no /usr/bin/time here" >&2; exit 1; }

task='.task a, go, 10, 0, 0, 0x140000'

# Three instructions, again and again.
loop() {
    printf '.code\ngo: addi t0, t0, 1\nxor t1, t1, t0\nj go\n%s\n' "$task"
}

# A load in the place of one of them.
memory() {
    printf '.code\ngo: la s0, box\nagain: lw t0, 0(s0)\naddi t0, t0, 1\nj again\n.ram\nbox: .word 0\n%s\n' "$task"
}

# One task posts to a semaphore and takes it.
semaphore() {
    printf '.code\ngo: li a0, s\nos OSSemPost\nli a0, s\nos OSSemPend\nj go\n.sem s, 0\n%s\n' "$task"
}

# A task that wakes the other, and waits to be woken by it.
turns() {
    printf '%s: li a0, %s\nli a1, 0\nos OSSemPost\nli a0, %s\nli a1, 0\nli a2, 0\nos OSSemPend\nj %s\n' "$1" "$2" "$3" "$1"
}

two_tasks() {
    echo .code
    turns go s u
    turns back u s
    printf '.sem s, 0\n.sem u, 0\n%s\n.task b, back, 10, 0, 0, 0x13e000\n' "$task"
}

# A task counts while every sixtieth raw step an interrupt comes, whose post wakes a task of a higher priority.
interrupts() {
    printf '.code\ngo: addi t0, t0, 1\nj go\nhandler: os OSSemPost\nret\nwoken: os OSSemPend\nj woken\n.sem s, 0\n%s\n' "$task"
    printf '.task b, woken, 5, 0, 0, 0x13e000\n.vector 3, 2, handler, 0x13f000\n.inject\n'
    awk 'BEGIN { for (i = 0; i < 16384; i++) print "step " 60 * i + 7 ", 3" }'
}

# So many tasks are delayed far away, each to a tick of its own. From the four hundredth task step on every second one is a tick, and
# none of these ends a delay.
delayed() {
    awk -v tasks="$1" 'BEGIN {
        print ".code"
        for (i = 0; i < tasks; i++) {
            printf "l%d: li a0, %d\nos OSTimeDly\nj l%d\n", i, 1000000000 + i, i
            printf ".task t%d, l%d, 10, 0, 0, 0x140000\n", i, i
        }
        print "tick: os OSTimeTick\nret\n.vector 3, 2, tick, 0x13f000\n.inject"
        for (i = 0; i < 2000; i++) printf "task %d, 3\n", 400 + 2 * i
    }'
}

# A text of 4 MiB: instructions and words of RAM with labels and comments, and lines of comments behind them.
full_text() {
    awk 'BEGIN {
        print ".code\ngo: nop"
        for (i = 0; i < 16383; i++) print "l" i ": addi a0, a1, " i % 2000 " # a comment after an instruction, as people write them"
        print ".ram"
        for (i = 0; i < 16384; i++) print ".word " i ", -1, 0x7f, l7 # table"
        print ".sem s, 0\n.task a, go, 10, 0, 0, 0x140000"
        for (i = 0; i < 45000; i++) print "# xxxxxxxxxxxxxxxxxxxxxxxxxxxxxxxxxxxxxxxxxxxxxxxxxxxxxxxxxxxx"
    }' | head -c 4194304
}

# The most lines that a text can have with an instruction on each.
most_instructions() {
    awk 'BEGIN { for (i = 0; i < 1048576; i++) print "nop" }'
}

# The most lines that a text can have with a statement on each.
most_lines() {
    awk 'BEGIN { for (i = 0; i < 2097152; i++) print "a" }'
}

# As many instructions as the code can have.
full_code() {
    awk 'BEGIN {
        print ".code\ngo: nop"
        for (i = 0; i < 16383; i++) print "add a0, a1, a2"
        print ".task a, go, 10, 0, 0, 0x140000"
    }'
}

# The instructions of the program on a case, with these words.
collected() {
    file=$1
    shift
    valgrind --tool=callgrind --callgrind-out-file=/dev/null "$program" "$@" < "$folder/$file" 2>&1 > /dev/null |
        awk '/Collected/ { print $NF }'
}

# The instructions of 100,000 task steps of a case by a method.
steps() {
    echo $(($(collected "$1" run "$2" 150000) - $(collected "$1" run "$2" 50000)))
}

# Measures a case against its budget.
over=0
measure() {
    "$1" > "$folder/$1"
    step=$(($(steps "$1" direct) / 100000))
    echo "$1: $step instructions a task step, budget $2"
    if [ "$step" -gt "$2" ]; then over=1; fi
}

# Measures the deferred method against the direct one on a case without interrupts: at most 105 of 100.
compare() {
    percent=$(($(steps "$1" deferred) * 100 / $(steps "$1" direct)))
    echo "$1: the deferred method takes $percent of 100 of the direct one's instructions, budget 105"
    if [ "$percent" -gt 105 ]; then over=1; fi
}

# The instructions of the second 1,000 ticks of a case with delayed tasks, by a method.
ticks() {
    echo $(($(collected "$1" run "$2" 4400) - $(collected "$1" run "$2" 2400)))
}

# Measures 1,000 ticks by a method while 60 tasks are delayed against as many while one is: at most 110 of 100.
compare_ticks() {
    delayed 1 > "$folder/one_delayed"
    delayed 60 > "$folder/all_delayed"
    few=$(ticks one_delayed "$1")
    percent=$(($(ticks all_delayed "$1") * 100 / few))
    echo "$1: a tick takes $((few / 1000)) instructions with one delayed task, and with 60 $percent of 100 of them, budget 110"
    if [ "$percent" -gt 110 ]; then over=1; fi
}

# Measures the listing of a text against its budget in millions.
measure_list() {
    "$1" > "$folder/$1"
    millions=$(($(collected "$1" list) / 1000000))
    echo "$1: $millions million instructions, budget $2"
    if [ "$millions" -gt "$2" ]; then over=1; fi
}

# Measures the most memory of the listing of a text against its budget in kB.
measure_memory() {
    "$1" > "$folder/$1"
    kilobytes=$(/usr/bin/time -f %M "$program" list < "$folder/$1" 2>&1 > /dev/null | tail -n 1)
    echo "$1: $kilobytes kB at most, budget $2"
    if [ "$kilobytes" -gt "$2" ]; then over=1; fi
}

measure loop 130
measure memory 150
measure semaphore 600
measure two_tasks 825
measure interrupts 260
compare loop
compare semaphore
compare_ticks direct
compare_ticks deferred
measure_list full_text 135
measure_list most_instructions 800
measure_list full_code 36
measure_memory most_instructions 130000
measure_memory most_lines 250000
exit $over
