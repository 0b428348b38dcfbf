#!/bin/sh
# Measures parts of the work in one run on one machine: reading against `sha256sum` over as many bytes,
# assembling against reading the tokens alone, instructions against as many plain additions.
# Prints a line a part: both times, each the best of seven, and their ratio.
# First build the program: (cd crates/bench_parts && rt run)
set -eu
cd "$(dirname "$0")/.."
. bench/built.sh
built bench_parts
count=${1:-4194304}

# The least number of nanoseconds that a command took.
best() {
    least=
    for turn in 1 2 3 4 5 6 7; do
        before=$(date +%s%N)
        "$@" > /dev/null
        taken=$(($(date +%s%N) - before))
        if [ -z "$least" ] || [ "$taken" -lt "$least" ]; then least=$taken; fi
    done
    echo "$least"
}

head -c "$count" /dev/zero | tr '\0' '\n' > "$folder/lines"
head -c "$count" /dev/zero | tr '\0' '#' > "$folder/comment"
head -c "$count" /dev/zero | tr '\0' '0' > "$folder/number"
yes 'go: lw t1, -4(sp) # the top' | head -c "$count" > "$folder/instructions"
empty=$(best "$program")
for part in lines comment number instructions; do
    took=$(best "$program" "tokens-$part" "$count")
    hash=$(best sha256sum "$folder/$part")
    echo "tokens-$part $count: $((took / 1000)) us, sha256sum $((hash / 1000)) us, ratio $((took * 100 / hash))/100"
done
names=150000
took=$(best "$program" assemble-names "$names")
plain=$(best "$program" tokens-names "$names")
echo "assemble-names $names: $((took / 1000)) us, tokens alone $((plain / 1000)) us, ratio $((took * 100 / plain))/100"
instructions=${2:-100000000}
took=$(best "$program" instructions "$instructions")
plain=$(best "$program" additions "$instructions")
echo "instructions $instructions: $((took / 1000)) us, additions $((plain / 1000)) us, ratio $((took * 100 / plain))/100"
echo "the program alone: $((empty / 1000)) us"
