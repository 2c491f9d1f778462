#!/bin/bash
# Refuses each allocation of the proved program in turn, for each of its commands: it must then answer `memory` with
# status 3, print nothing and write no file, or else answer as it does with memory. Tests of boards must pass, or end
# because memory or a thread was refused. Then it refuses all allocations from the Nth on: the calls of a board that is
# made take none. At last it counts the allocations of longer and longer runs: events take none, so only the growth of
# the text that is read is seen.
#
#   checks/program/refused_memory.sh
#
# It wants a C compiler and the GNU C library, and the program and the tests as `rt run` and `rt test` leave them in
# crates/fmp/out and crates/fmp_library_tests/out.
set -euo pipefail
root=$(cd "$(dirname "$0")/../.." && pwd)
fmp=$root/crates/fmp/out/fmp
[ -x "$fmp" ] || (cd "$root/crates/fmp" && rt run > /dev/null)
tests=$root/crates/fmp_library_tests/out/fmp_library_tests_tests
[ -x "$tests" ] || (cd "$root/crates/fmp_library_tests" && rt test > /dev/null)
room=$(mktemp -d)
trap 'rm -rf "$room"' EXIT
cd "$room"
"${CC:-cc}" -O1 -shared -fPIC -o refuse.so "$root/checks/program/refuse_memory.c"

cat > system.cfg <<'TEXT'
NUM_PRC(1);
CLASS(TCL_1) {
CRE_TSK(M,{TA_ACT,0,m,10,256,NULL});
CRE_TSK(A,{0,3,a,5,256,NULL});
CRE_SEM(S,{TA_TPRI,0,2});
CRE_FLG(F,{TA_WMUL|TA_CLR,0});
CRE_DTQ(Q,{TA_TFIFO,2,NULL});
CRE_MBX(X,{TA_MPRI,3,NULL});
CRE_MSG(G,{2});
CRE_SHR(W,{-7});
}
TEXT
cat > system.src <<'TEXT'
task m {
    var i;
    act_tsk(A);
    while (i < 3) { snd_dtq(Q, i * 2); sig_sem(S); i = i + 1; }
    snd_mbx(X, G); set_flg(F, 5); dly_tsk(2);
    if (i == 3 && !(i < 0)) { st_shr(W, i | 8); } else { return; }
}
task a { var v; var c; c = rcv_dtq(Q, &v); put(v); wai_sem(S); put(c); ld_shr(W, &v); put(v); }
TEXT
{ for _ in $(seq 12); do echo 'run 1'; done; for _ in $(seq 4); do echo tick; echo 'run 1'; done; } > system.steps
sed 's/A,{0,3/A,{9,3/' system.cfg > fault.cfg
sed 's/put(c)/put(d)/' system.src > fault.src
"$fmp" build system.cfg system.src system.img > /dev/null
head -c 100 system.img > short.img
sed 's/tick/tock/' system.steps > fault.steps

# One run of a command, with an allocation refused or none (0): its status, its output and its image.
answer() {
    local at=$1 status=0
    shift
    rm -f made.img
    REFUSE_AT=$at REFUSE_LOG=asked LD_PRELOAD="$room/refuse.so" "$fmp" "$@" > output 2> errors || status=$?
    echo "$status"
    cat output errors
    if [ -e made.img ]; then cksum < made.img; fi
}

memory=$(printf '3\nmemory')
# a thread whose memory is refused by the system is a refused thread
thread=$(printf '1\nhost: H5')
failed=0

# Each allocation of a command in turn, until it asks for fewer.
each_refused() {
    local whole at=1 said
    whole=$(answer 0 "$@")
    while said=$(answer $at "$@"); [ "$at" -le "$(cat asked)" ]; do
        if [ "$said" != "$memory" ] && [ "$said" != "$whole" ] &&
            { [ "$1" != host ] || [ "$said" != "$thread" ]; }; then
            echo "fmp $*: allocation $at refused: $said"
            failed=1
        fi
        at=$((at + 1))
    done
    [ "$said" = "$whole" ] || { echo "fmp $*: not as with memory: $said"; failed=1; }
    echo "fmp $*: $((at - 1)) allocations refused in turn"
}

each_refused
each_refused check system.cfg system.src
each_refused check fault.cfg system.src
each_refused check system.cfg fault.src
each_refused build system.cfg system.src made.img
each_refused build system.cfg fault.src made.img
each_refused sim system.img system.steps
each_refused sim short.img system.steps
each_refused sim system.img fault.steps
each_refused host system.img made.img --turns 8 --ticks 0
each_refused host short.img made.img --turns 8 --ticks 0

# One test of boards with allocations refused as the first word says: whether it passed. Else it has to end because
# memory was refused, or a thread, whose memory the system refused.
passes() {
    local status=0
    echo 0 > asked
    env "$1" REFUSE_LOG=asked LD_PRELOAD="$room/refuse.so" "$tests" "tests::$2" > output 2> errors || status=$?
    [ "$status" -ne 0 ] || return 0
    if [ "$status" -ne 101 ] || ! grep -Eq '^error: .*(AllocError|AllocFailed|Memory|Thread)' errors; then
        echo "test $2, $1: status $status: $(cat errors)"
        failed=1
    fi
    return 1
}

# Each allocation of a test of boards in turn, until it asks for fewer.
each_refused_in_test() {
    local at=1 passed=0 is_last
    while passes "REFUSE_AT=$at" "$1" && is_last=1 || is_last=0; [ "$at" -le "$(cat asked)" ]; do
        passed=$((passed + is_last))
        at=$((at + 1))
    done
    [ "$is_last" = 1 ] || { echo "test $1: it does not pass with memory"; failed=1; }
    echo "test $1: $((at - 1)) allocations refused in turn, after $passed of which it passed"
}

each_refused_in_test hosting::processors_that_wait_for_one_another
each_refused_in_test following::a_board_that_was_fed

# Its one growth after those of the board is refused, too.
made=overtaking::a_board_that_takes_no_memory_once_it_is_made
passes REFUSE_FROM=0 "$made" || failed=1
whole=$(cat asked)
from=1
until [ "$from" -gt "$whole" ] || passes "REFUSE_FROM=$from" "$made"; do from=$((from + 1)); done
[ "$from" -le "$whole" ] || { echo "test $made: a board that is made takes memory"; failed=1; }
echo "test $made: of $whole allocations all from number $from on refused"

"$fmp" build "$root/examples/semaphore.cfg" "$root/examples/semaphore.src" turns.img > /dev/null
for events in 1024 4096 16384 65536 262144 1048576; do
    awk -v count=$events 'BEGIN { for (i = 0; i < count; i++) print "run 1" }' > turns.steps
    answer 0 sim turns.img turns.steps > /dev/null
    now=$(cat asked)
    echo "$events events: $now allocations"
    # two doublings each of the bytes of the steps, the events and the trace
    if [ "${before:-$now}" -lt $((now - 6)) ]; then
        echo "events take memory"
        failed=1
    fi
    before=$now
done
exit $failed
