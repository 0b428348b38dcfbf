#!/bin/sh
# Runs the tests of the lists over links under valgrind, each alone: prints a line for each with its allocations, and stops where a
# test fails, a byte is leaked or an access is not valid. Where valgrind is not installed, it says so and runs nothing.
# First build the tests: (cd crates/list_uses && rt test). The gate does not run this.
set -eu
cd "$(dirname "$0")/.."
tests=crates/list_uses/out/list_uses_tests
test -x "$tests" || { echo "no $tests: run rt test in crates/list_uses first" >&2; exit 1; }
command -v valgrind >/dev/null || { echo "valgrind is not installed: nothing was run"; exit 0; }
log=$(mktemp)
trap 'rm -f "$log"' EXIT
for name in $("$tests" --list | sed -n "s/: test$//p"); do
    if ! valgrind --leak-check=full --show-leak-kinds=all --errors-for-leak-kinds=all --error-exitcode=9 --log-file="$log" "$tests" "$name" >/dev/null; then
        echo "$name" >&2
        cat "$log" >&2
        exit 1
    fi
    echo "$name: $(sed -n 's/.*total heap usage: //p' "$log"), $(sed -n 's/.*ERROR SUMMARY: \([0-9]* errors\).*/\1/p' "$log")"
done
