#!/bin/bash
# Times the proved program on systems and texts that this script makes, and prints a table.
#
#   bench/run.sh [RUNS]     RUNS is how often each is run, 5 where it is not given; the least time of each is printed,
#                           by user and system time, and the greatest memory that it held at once
#
# It needs the program as `rt run` leaves it in crates/fmp/out, and builds it where it is not there. FMP names another
# one. The command `time` of GNU tells times and memory. At the end stand the tables of bench/boards.sh.
set -euo pipefail
root=$(cd "$(dirname "$0")/.." && pwd)
runs=${1:-5}
fmp=${FMP:-$root/crates/fmp/out/fmp}
[ -x "$fmp" ] || (cd "$root/crates/fmp" && rt run > /dev/null)
room=$(mktemp -d)
trap 'rm -rf "$room"' EXIT
cd "$room"

events=1048576

# This many lines of a step.
repeated() { awk -v count="$1" -v step="$2" 'BEGIN { for (i = 0; i < count; i++) print step }'; }

# A configuration of one processor around the static APIs on standard input.
configuration() { echo 'NUM_PRC(1);'; echo 'CLASS(TCL_1) {'; cat; echo '}'; }

# Two tasks that hand a semaphore back and forth.
two_tasks() {
    cp "$root/examples/semaphore.cfg" two_tasks.cfg
    cp "$root/examples/semaphore.src" two_tasks.src
    repeated $events 'run 1' > two_tasks.steps
}

# Eight processors with two tasks each. Task i waits for semaphore i and then signals the next one, and processor by
# processor the one count goes round. Every tenth event is an interrupt on the processor whose turn it is: of the next
# two its handler makes a call and ends, and seven are of tasks. No event does nothing.
eight_processors() {
    awk 'BEGIN {
        print "NUM_PRC(8);"
        for (p = 1; p <= 8; p++) {
            print "CLASS(TCL_" p ") {"
            for (i = 2 * p - 1; i <= 2 * p; i++) {
                printf "CRE_TSK(T%d,{TA_ACT,%d,t,10,256,NULL});\n", i, i
                printf "CRE_SEM(S%d,{TA_TFIFO,%d,1});\n", i, i == 1
            }
            print "DEF_INH(" p ",{TA_NULL,h});"
            print "}"
        } }' > eight_processors.cfg
    cat > eight_processors.src <<'TEXT'
task t { while (1) { wai_sem(exinf); sig_sem(exinf % 16 + 1); } }
handler h { irot_rdq(10); }
TEXT
    awk -v count=$events 'BEGIN {
        for (i = 0; i < 16; i++) print "run " int(i / 2) + 1
        for (i = 16; i < count; i++) {
            p = int(turn / 4) % 8 + 1
            if (i % 10 == 6) print "int " p; else print "run " p
            if (i % 10 < 6 || i % 10 == 9) turn++
        } }' > eight_processors.steps
}

# This many tasks of one priority that take turns. Their names are of one length, whatever their number.
turns_of() { # turns_of CASE TASKS
    awk -v tasks="$2" 'BEGIN {
        for (i = 1; i <= tasks; i++) printf "CRE_TSK(T%03d,{TA_ACT,0,t,10,256,NULL});\n", i }' |
        configuration > "$1.cfg"
    echo 'task t { while (1) { rot_rdq(10); } }' > "$1.src"
    repeated $events 'run 1' > "$1.steps"
}
rotation() { turns_of rotation 255; }
rotation_of_16_tasks() { turns_of rotation_of_16_tasks 16; }

# 255 tasks with different delays: a tick after each six calls.
delays() {
    awk 'BEGIN { for (i = 1; i <= 255; i++) printf "CRE_TSK(T%d,{TA_ACT,%d,t,10,256,NULL});\n", i, i }' |
        configuration > delays.cfg
    echo 'task t { while (1) { dly_tsk(exinf); } }' > delays.src
    awk -v count=$events 'BEGIN { for (i = 0; i < count; i++) print i % 7 == 6 ? "tick" : "run 1" }' > delays.steps
}

# This many tasks with one delay, of which four are released at each tick and call again: the delay is one less than a
# quarter of their number. No event does nothing.
equal_delays_of() { # equal_delays_of CASE TASKS
    awk -v tasks="$2" 'BEGIN {
        for (i = 1; i <= tasks; i++) printf "CRE_TSK(T%03d,{TA_ACT,%d,t,10,256,NULL});\n", i, tasks / 4 - 1 }' |
        configuration > "$1.cfg"
    echo 'task t { while (1) { dly_tsk(exinf); } }' > "$1.src"
    awk -v count=$events 'BEGIN { for (i = 0; i < count; i++) print i % 5 == 4 ? "tick" : "run 1" }' > "$1.steps"
}
equal_delays_of_252_tasks() { equal_delays_of equal_delays_of_252_tasks 252; }
equal_delays_of_16_tasks() { equal_delays_of equal_delays_of_16_tasks 16; }

# 254 tasks of different priorities that wait for a semaphore in order of priority, and one that changes them and
# signals.
priorities() {
    awk 'BEGIN {
        print "CRE_TSK(D,{TA_ACT,0,driver,16,256,NULL});"
        for (i = 2; i <= 255; i++) printf "CRE_TSK(T%d,{TA_ACT,0,waiter,%d,256,NULL});\n", i, i % 15 + 1
        print "CRE_SEM(S,{TA_TPRI,0,255});" }' | configuration > priorities.cfg
    cat > priorities.src <<'TEXT'
task driver { var i; while (1) { i = i % 254 + 1; chg_pri(i + 1, i * 7 % 15 + 1); sig_sem(S); } }
task waiter { while (1) { wai_sem(S); } }
TEXT
    repeated $events 'run 1' > priorities.steps
}

# One stretch of arithmetic: 15 instructions a turn.
turns=20000000
arithmetic() {
    echo 'CRE_TSK(T,{TA_ACT,0,t,10,256,NULL});' | configuration > arithmetic.cfg
    echo "task t { var i; var s; while (i < $turns) { s = s ^ i * 3; i = i + 1; } put(s); }" > arithmetic.src
    echo 'run 1' > arithmetic.steps
}

# One stretch over an array: each number goes into a window of 16 places, which is summed and shifted by one, in 15
# turns of an inner loop. A number takes 320 instructions.
numbers=666667
window() {
    echo 'CRE_TSK(T,{TA_ACT,0,t,10,256,NULL});' | configuration > window.cfg
    cat > window.src <<TEXT
task t {
    var w[16]; var s; var i; var n;
    while (n < $numbers) {
        s = 0;
        i = 0;
        while (i < 15) { s = s + w[i]; w[i] = w[i + 1]; i = i + 1; }
        w[15] = n;
        n = n + 1;
    }
    put(s);
}
TEXT
    echo 'run 1' > window.steps
}

# This many processors that share nothing: each has a task that counts to 500 between two calls.
turns_by_threads=16000
apart() { # apart PROCESSORS
    awk -v processors="$1" 'BEGIN {
        print "NUM_PRC(" processors ");"
        for (p = 1; p <= processors; p++)
            printf "CLASS(TCL_%d) { CRE_TSK(T%d,{TA_ACT,0,t,10,256,NULL}); }\n", p, p }' > "apart$1.cfg"
    echo 'task t { var i; while (1) { i = 0; while (i < 500) { i = i + 1; } put(i); } }' > "apart$1.src"
}

# A text of this many bodies, each of just under 256 KiB, and no steps.
text() {
    echo 'CRE_TSK(T,{TA_ACT,0,b0,10,256,NULL});' | configuration > "text$1.cfg"
    awk -v bodies="$1" 'BEGIN {
        for (b = 0; b < bodies; b++) {
            printf "task b%d {\n", b
            for (i = 0; i < 32762; i++) print "put(1);"
            print "}"
        } }' > "text$1.src"
    : > "text$1.steps"
}

# A text of 255 bodies and just under 1 MiB with statements of all kinds, and no steps.
statements() {
    configuration > statements.cfg <<'TEXT'
CRE_TSK(T,{0,0,body_0,10,65536,NULL});
CRE_SEM(S,{0,0,1});
CRE_FLG(F,{0,0});
CRE_DTQ(D,{0,4,NULL});
TEXT
    awk 'BEGIN {
        for (b = 0; b < 255; b++) {
            printf "task body_%d {\n  var total; var left_over; var x1;\n", b
            for (i = 0; i < 11; i++) {
                printf "  // Turn %d: what is left over goes to the next one.\n", i
                printf "  total = (left_over + %d) * x1 - exinf %% 7;\n", b + i
                printf "  if (total >= 0x1f && left_over != %d || !x1) {\n", i
                print "    left_over = snd_dtq(D, total | 1);"
                print "    twai_flg(F, 3, TWF_ORW, &x1, 10);"
                print "  } else {"
                print "    while (x1 < 10) { x1 = x1 + 1; if (x1 == total / 3) { break; } sig_sem(S); }"
                print "  }"
                print "  put(-total ^ left_over & 255);"
            }
            print "}"
        } }' > statements.src
    : > statements.steps
}

# A configuration of 255 objects of each kind but interrupt handlers, of which there are 32, and no steps.
objects() {
    awk 'BEGIN {
        print "NUM_PRC(8);"
        for (p = 1; p <= 8; p++) {
            print "CLASS(TCL_" p ") {"
            for (i = p; i <= 255; i += 8) {
                printf "  CRE_TSK(task_%d, {TA_ACT, %d, main, %d, 1024, NULL});\n", i, i, i % 16 + 1
                printf "  CRE_SEM(semaphore_%d, {TA_TPRI, %d, 65535});\n", i, i
                printf "  CRE_FLG(eventflag_%d, {TA_TPRI|TA_WMUL|TA_CLR, %d});\n", i, i
                printf "  CRE_DTQ(dataqueue_%d, {TA_TFIFO, %d, NULL});\n", i, i
                printf "  CRE_MBX(mailbox_%d, {TA_TPRI|TA_MPRI, %d, NULL});\n", i, i % 16 + 1
                printf "  CRE_MSG(message_%d, {%d});\n", i, i % 16 + 1
                printf "  CRE_SHR(word_%d, {-%d});\n", i, i
                printf "  CRE_SPN(lock_%d, {0});\n", i
                printf "  CRE_CYC(cyclic_%d, {TA_STA, %d, every, %d, %d});\n", i, i, i, i
                if (i <= 32) printf "  DEF_INH(%d, {TA_NULL, interrupt});\n", i
            }
            print "}"
        } }' > objects.cfg
    echo 'task main { } handler every { } handler interrupt { }' > objects.src
    : > objects.steps
}

# The least real, user and system times of a command in seconds, by user and system time, and the most memory that it
# held in KiB. This many runs in a row are timed as one.
best() { # best IN_A_ROW COMMAND..
    local in_a_row=$1
    shift
    for _ in $(seq "$runs"); do
        command time -a -o times -f '%e %U %S %M' sh -c \
            'i=0; while [ $i -lt $0 ]; do "$@" > output || exit; i=$((i + 1)); done' "$in_a_row" "$@" 2> errors
    done
    awk -v row="$in_a_row" '{
        spent = $2 + $3
        if (NR == 1 || spent < least) { least = spent; r = $1; u = $2; s = $3 }
        if ($4 > most) most = $4 }
        END { print r / row, u / row, s / row, most }' times
    rm times
}

# A row of the table: a name, what was counted, how many, and the times and the memory.
row() {
    awk -v name="$1" -v unit="$2" -v count="$3" -v times="$4" 'BEGIN {
        split(times, t, " ")
        spent = t[2] + t[3]
        rate = count / (spent > 0 ? spent : 0.0001) / 1000000
        printf "| %s | %d %s | %.4f | %.4f | %.4f | %.1f | %.1f million %s |\n",
            name, count, unit, t[1], t[2], t[3], t[4] / 1024, rate, unit }'
}

build() { "$fmp" build "$1.cfg" "$1.src" "$1.img" > output; }
host() { best 1 "$fmp" host "apart$1.img" "apart$1.steps" --turns $((turns_by_threads / $1)) --ticks 0; }
simulate() { best 1 "$fmp" sim "$1.img" "$1.steps" --bound 281474976710656; }

# The rows of texts without steps: they are checked, built, and their image is loaded.
texts() { # texts CASE NAME
    local size
    size=$(cat "$1.cfg" "$1.src" | wc -c)
    row "\`check\`: $2" bytes "$size" "$(best 10 "$fmp" check "$1.cfg" "$1.src")"
    row "\`build\`: $2" bytes "$size" "$(best 10 "$fmp" build "$1.cfg" "$1.src" "$1.img")"
    row '`sim`: its image, no steps' bytes "$(wc -c < "$1.img")" "$(best 10 "$fmp" sim "$1.img" "$1.steps")"
}

echo '| What | Size | Real s | User s | System s | Peak MiB | A second of user and system time |'
echo '|---|---|---|---|---|---|---|'
declare -A spent printed
for it in two_tasks eight_processors rotation rotation_of_16_tasks delays equal_delays_of_252_tasks \
    equal_delays_of_16_tasks priorities; do
    $it
    build $it
    spent[$it]=$(simulate $it)
    printed[$it]=$(wc -c < output)
    row "\`sim\`: ${it//_/ }" events $events "${spent[$it]}"
done
arithmetic
build arithmetic
row '`sim`: arithmetic' instructions $((15 * turns)) "$(simulate arithmetic)"
window
build window
row '`sim`: a window of 16 places' instructions $((320 * numbers)) "$(simulate window)"
for processors in 1 2 4 8; do
    apart $processors
    build apart$processors
    row "\`host\`: processors that share nothing, $processors" events $turns_by_threads "$(host $processors)"
    row '`sim`: its journal' events $turns_by_threads "$(simulate apart$processors)"
done
statements
texts statements 'texts of all statements'
objects
texts objects '255 objects of each kind'
for bodies in 1 2 4; do
    text $bodies
    row '`build`: task text' bytes "$(wc -c < text$bodies.src)" \
        "$(best 10 "$fmp" build text$bodies.cfg text$bodies.src text$bodies.img)"
    row '`sim`: its image, no steps' bytes "$(wc -c < text$bodies.img)" \
        "$(best 10 "$fmp" sim text$bodies.img text$bodies.steps)"
done

# How an event of each case compares with one of the simplest, and one of many tasks with one of few.
ratio() { # ratio CASE CASE
    awk -v a="${spent[$1]}" -v b="${spent[$2]}" -v one="${1//_/ }" -v two="${2//_/ }" 'BEGIN {
        split(a, s, " ")
        split(b, t, " ")
        printf "An event of %s takes %.2f times as long as one of %s.\n", one, (s[2] + s[3]) / (t[2] + t[3]), two }'
}
echo
for it in eight_processors rotation delays priorities; do ratio $it two_tasks; done
ratio rotation rotation_of_16_tasks
ratio equal_delays_of_252_tasks equal_delays_of_16_tasks

# What a run holds, and how much it prints meanwhile.
echo
for it in two_tasks eight_processors rotation delays priorities; do
    awk -v t="${spent[$it]}" -v bytes="${printed[$it]}" -v name="${it//_/ }" 'BEGIN {
        split(t, s, " ")
        printf "At its peak %s holds %.1f MiB; it prints %.1f.\n", name, s[4] / 1024, bytes / 1048576 }'
done

# Boards that threads share.
echo
"$root/bench/boards.sh" "$runs"
