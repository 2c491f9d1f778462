#!/bin/sh
# Counts the instructions of a service call through the library for C, under valgrind, between 20,000 and 60,000 calls.
#
#   bench/calls.sh [LIBRARY]     crates/fmp_c/out/libfmp_c.a where it is not given, as `rt lib` leaves it
#
# `pair` are calls of two tasks that hand a semaphore back and forth, and `sleep` those of two tasks that wake each
# other and sleep: every second call of both switches tasks. `same` are calls of one task that gives and takes a
# semaphore. The first column counts them without a port, the second those of C tasks in virtual time, and the third
# those of the least kernel in C that has them, bench/baseline.c.
set -eu
root=$(cd "$(dirname "$0")/.." && pwd)
library=${1:-$root/crates/fmp_c/out/libfmp_c.a}
glue=$(dirname "$(dirname "$(readlink -f "$(command -v rt)")")")/c/liblibc_c.a
room=$(mktemp -d)
trap 'rm -rf "$room"' EXIT

compiled() {
    "${CC:-cc}" -std=c11 -O2 -I"$root/port/include" -I"$root/port" "$root/bench/$1.c" "$root/port/virtual.c" \
        "$root/port/system.c" "$root/port/files.c" "$root/port/recording.c" "$root/port/overflow.c" \
        "$root/port/checked.c" "$root/port/coroutine.c" "$library" "$glue" -o "$room/$1"
}

# counted PROGRAM KIND CALLS: the instructions of a run.
counted() {
    valgrind --tool=callgrind --callgrind-out-file=/dev/null "$room/$1" "$2" "$3" 2>&1 |
        sed -n 's/.*Collected : \([0-9]*\).*/\1/p'
}

a_call() {
    echo $((($(counted "$1" "$2" 60000) - $(counted "$1" "$2" 20000)) / 40000))
}

compiled calls
compiled baseline
echo "instructions a call: without a port, C tasks, baseline"
for kind in pair sleep same; do
    echo "$kind: $(a_call calls $kind) $(a_call calls tasks-$kind) $(a_call baseline $kind)"
done
