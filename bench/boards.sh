#!/bin/bash
# Times boards that threads share, and prints a table: processors with stretches of 1,000,000 instructions, each by a
# thread of its own that takes tickets, and a seat that follows a finished row.
#
#   bench/boards.sh [RUNS]     RUNS is how often each is run, 5 where it is not given; the least time of each is
#                              printed, by the clock and without the start of the program, the image and the files
#
# It needs the programs as `rt run` leaves them in crates/fmp/out and crates/fmp_stress/out, and builds them where they
# are not there. FMP and STRESS name other ones. It needs a machine of four processors that does nothing else.
set -euo pipefail
root=$(cd "$(dirname "$0")/.." && pwd)
runs=${1:-5}
fmp=${FMP:-$root/crates/fmp/out/fmp}
stress=${STRESS:-$root/crates/fmp_stress/out/fmp_stress}
[ -x "$fmp" ] || (cd "$root/crates/fmp" && rt run > /dev/null)
[ -x "$stress" ] || (cd "$root/crates/fmp_stress" && rt run > /dev/null)
room=$(mktemp -d)
trap 'rm -rf "$room"' EXIT
cd "$room"

events=1200
row=1048576

# This many processors that share nothing, with a task each of this body.
apart() { # apart CASE PROCESSORS BODY
    awk -v processors="$2" 'BEGIN {
        print "NUM_PRC(" processors ");"
        for (p = 1; p <= processors; p++)
            printf "CLASS(TCL_%d) { CRE_TSK(T%d,{TA_ACT,0,t,10,256,NULL}); }\n", p, p }' > "$1.cfg"
    echo "task t { $3 }" > "$1.src"
    "$fmp" build "$1.cfg" "$1.src" "$1.img" > output
}

# The least microseconds that a line of the program tells, of this many runs.
least() { # least LINE CASE OPTION..
    local line=$1 image=$2
    shift 2
    for _ in $(seq "$runs"); do
        "$stress" "$image.img" "$image.journal" --own --time "$@" | awk -v line="$line" '$1 == line { print $(NF - 1) }'
    done | sort -n | head -n 1
}

# A row of the table, with its rate beside another one.
told() { # told NAME COUNT MICROSECONDS BESIDE
    awk -v name="$1" -v count="$2" -v us="$3" -v beside="$4" 'BEGIN {
        printf "| %s | %d | %.4f | %.0f | %s |\n", name, count, us / 1000000, count / us * 1000000, \
            beside == "" ? "" : sprintf("%.2f", beside / us) }'
}

echo '| What | Events | Real s | Events a second | Beside one processor |'
echo '|---|---|---|---|---|'
# 15 instructions a turn of the inner loop.
for processors in 1 2 4; do
    apart long$processors $processors \
        'var i; var s; while (1) { i = 0; while (i < 66666) { s = s ^ i * 3; i = i + 1; } put(s); }'
    spent=$(least calls long$processors --seats $((processors + 1)) --turns $((events / processors)) --bound 2000000)
    one=${one:-$spent}
    told "stretches of 1000000 instructions, processors: $processors" $events "$spent" "$one"
done
apart short 1 'while (1) { put(1); }'
told 'events that are followed from a finished row' $row "$(least reads short --seats 2 --turns $row)" ''
