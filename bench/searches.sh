#!/bin/bash
# Times searches of all schedules by `fmp_view explore`, beside SPIN where there is a model of the same system, and
# prints a table.
#
#   bench/searches.sh [RUNS [SYSTEM ..]]     RUNS is how often each is run, 3 where it is not given; the least time of
#                                            each is printed, by user and system time. SYSTEM.. are the rows: all,
#                                            where none is named. A search of over 15 seconds is run once.
#
# It needs the program as `rt run` leaves it in crates/fmp_view/out, and builds it where it is not there. VIEW names
# another one. A search may take MOST seconds of a processor, 300 where that is not given. GNU's command `time` tells
# times and memory. The columns of SPIN need spin and a C compiler, and stay empty where there is none.
#
# A second table tells what threads give, in seconds of the clock: for each system that one of its rows names, and for
# one, two and four jobs, where the machine has as many processors. Its last column is for as many searches with one job
# side by side: how many times the work of one they do in its time. Jobs can hardly give more than that. On a busy
# machine this table tells little.
#
# The systems stand in bench/searches and in checks/schedules/systems, and the models, *.pml, in bench/searches. In a
# model a transition is a service call or an access of a shared word, with the local work in front of it, as an event
# is. SPIN searches the whole space, on past what it finds, without its partial-order reduction, which leaves out no
# state of these models. It counts the state in front of `init` as one more. Bytes a state are the memory that the
# search holds, less that of a search of one state; those of SPIN are the memory for states that it prints.
set -euo pipefail
root=$(cd "$(dirname "$0")/.." && pwd)
here=$root/bench/searches
runs=${1:-3}
shift $(($# > 0))
named=" $* "
most=${MOST:-300}
view=${VIEW:-$root/crates/fmp_view/out/fmp_view}
[ -x "$view" ] || (cd "$root/crates/fmp_view" && rt run > /dev/null)
room=$(mktemp -d)
trap 'rm -rf "$room"' EXIT
cd "$room"

# A row: the system; the options of the search; the model, and the options of SPIN.
rows='
peterson||peterson|
race||race|
server||server|
rwlock||rwlock|
count4||count|-DN=4
prodcons||prodcons|
prod5||prod|-o2 -DN=5
phil7||phil|-DN=7
lostwake|||
cyc1000|||
watchcyc|||
invert|||
invert|--queued 1||
deep|||
belt|--ticks idle --ints 2||
belt|--ticks idle --ints 2 --queued 1||
motor_small|--ticks idle||
motor_small|--ticks idle --queued 1||
motor|--ticks idle --ints 3||
pipe|--ticks idle --ints 4||
'

# A row of the second table: the system; the options of the search.
beside='
phil7|
motor|--ticks idle --ints 3
'

# is_named SYSTEM: whether its rows are printed.
is_named() { [ "$named" = '  ' ] || [[ $named == *" $1 "* ]]; }

# place_of SYSTEM: where it stands, without the endings of its files.
place_of() { if [ -e "$here/$1.cfg" ]; then echo "$here/$1"; else echo "$root/checks/schedules/systems/$1"; fi; }

# least COMMAND..: runs it; its output is in the file `out`, and the least seconds and the kilobytes are in `spent`.
least() {
    local least_seconds='' seconds kilobytes
    for _ in $(seq "$runs"); do
        (ulimit -t "$most" && exec /usr/bin/time -f '%U %S %M' -o times "$@" > out 2> errors) || :
        read -r seconds kilobytes < <(tail -n 1 times | awk '{ printf "%.2f %d\n", $1 + $2, $3 }')
        if [ -z "$least_seconds" ] || awk "BEGIN { exit !($seconds < $least_seconds) }"; then
            least_seconds=$seconds
        fi
        if awk "BEGIN { exit !($seconds > 15) }"; then break; fi
    done
    spent="$least_seconds $kilobytes"
}

# The kilobytes of a search of one state.
echo 'NUM_PRC(1);' > one.cfg
: > one.src
least "$view" explore one.cfg one.src
base=${spent#* }

# searched SYSTEM OPTION..: the states of a search, its seconds and its bytes a state.
searched() {
    local place
    place=$(place_of "$1")
    shift
    least "$view" explore "$place.cfg" "$place.src" --all --out found "$@"
    awk -v spent="$spent" -v base="$base" -v most="$most" '
        / states, .* events, / { states = $1 }
        /^stopped/ { stopped = "stops at " }
        END {
            split(spent, at, " ")
            if (!states) print "not over in " most " s|" at[1] "|"
            else printf "%s%d|%s|%d\n", stopped, states, at[1], (at[2] - base) * 1024 / states
        }' out
}

# modelled MODEL OPTION..: the same of SPIN.
modelled() {
    local model=$1
    shift
    if ! spin "$@" -a "$here/$model.pml" > said 2>&1 || ! cc -O2 -DSAFETY -DNOREDUCE -w -o pan pan.c 2> said; then
        echo "bench/searches.sh: no search of the model $model: $(tail -n 1 said)" >&2
        echo '||'
        return
    fi
    least ./pan -m1000000 -E -A -c0 -w20
    awk -v spent="$spent" '
        / states, stored/ { states = $1 }
        /equivalent memory usage for states/ { bytes = $1 }
        /actual memory usage for states/ { bytes = $1 }
        END { split(spent, at, " "); printf "%d|%s|%d\n", states, at[1], bytes * 1048576 / states }' out
}

if ! command -v spin > /dev/null; then
    echo 'bench/searches.sh: there is no spin: its columns stay empty' >&2
fi

echo '| System | States | SPIN | Seconds | SPIN | Times SPIN | Bytes a state | SPIN |'
echo '|---|---|---|---|---|---|---|---|'
while IFS='|' read -r system options model defines; do
    [ -n "$system" ] || continue
    is_named "$system" || continue
    # shellcheck disable=SC2086 # words of the command lines
    IFS='|' read -r states seconds bytes < <(searched "$system" $options)
    their_states='' their_seconds='' their_bytes='' times=''
    if [ -n "$model" ] && command -v spin > /dev/null; then
        # shellcheck disable=SC2086
        IFS='|' read -r their_states their_seconds their_bytes < <(modelled "$model" $defines)
        times=$(awk -v a="$seconds" -v b="${their_seconds:-0}" 'BEGIN { if (a >= 0.1 && b > 0) printf "%.1f", a / b }')
    fi
    echo "| $system${options:+, \`$options\`} | $states | $their_states | $seconds | $their_seconds | $times |" \
        "$bytes | $their_bytes |"
done <<< "$rows"

# clocked COUNT JOBS SYSTEM OPTION..: the least seconds of the clock of this many searches side by side, each with this
# many jobs.
clocked() {
    local count=$1 jobs=$2 place begun ended seconds least=''
    place=$(place_of "$3")
    shift 3
    for _ in $(seq "$runs"); do
        begun=$(date +%s%N)
        for k in $(seq "$count"); do
            (ulimit -t "$most" && exec "$view" explore "$place.cfg" "$place.src" --all --jobs "$jobs" --out "found$k" \
                "$@" > /dev/null 2>&1) &
        done
        wait
        ended=$(date +%s%N)
        seconds=$(awk "BEGIN { printf \"%.2f\", ($ended - $begun) / 1000000000 }")
        if [ -z "$least" ] || awk "BEGIN { exit !($seconds < $least) }"; then least=$seconds; fi
    done
    echo "$least"
}

echo
echo '| System | Jobs | Seconds | Times one job | Side by side |'
echo '|---|---|---|---|---|'
while IFS='|' read -r system options; do
    { [ -n "$system" ] && is_named "$system"; } || continue
    # shellcheck disable=SC2086
    alone=$(clocked 1 1 "$system" $options)
    echo "| $system${options:+, \`$options\`} | 1 | $alone | | |"
    for jobs in 2 4; do
        [ "$jobs" -le "$(nproc)" ] || continue
        # shellcheck disable=SC2086
        seconds=$(clocked 1 "$jobs" "$system" $options)
        # shellcheck disable=SC2086
        together=$(clocked "$jobs" 1 "$system" $options)
        awk -v jobs="$jobs" -v s="$seconds" -v one="$alone" -v all="$together" \
            'BEGIN { printf "| | %d | %.2f | %.1f | %.1f |\n", jobs, s, one / s, jobs * one / all }'
    done
done <<< "$beside"
