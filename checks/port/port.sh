#!/bin/sh
# Compiles C programs with the library for C and its ports, and runs them: the examples, to the byte of their traces,
# and their recordings, replayed; what is answered to a mistake; random calls and random C tasks beside the model of the
# kernel; examples and random C tasks in real time, beside the model too; runs that signals end. It does so with two
# compilers, with the sanitizers of one, with valgrind, and with the library as `make install` copies it. It names what
# is not on the machine.
#
#   [FMP=PROGRAM] checks/port/port.sh [LIBRARY [COUNT]]
#
# LIBRARY is crates/fmp_c/out/libfmp_c.a where it is not given, as the gate or `rt lib` makes it. COUNT is how many
# random systems are run (1,000). FMP is the program that makes images (crates/fmp/out/fmp). Where there is no C
# compiler the script says that it did not run, with status 0.
set -eu

LC_ALL=C
export LC_ALL
root=$(cd "$(dirname "$0")/../.." && pwd)
script=checks/port/port.sh
library=${1:-$root/crates/fmp_c/out/libfmp_c.a}
count=${2:-1000}
fmp=${FMP:-$root/crates/fmp/out/fmp}
cc=${CC:-cc}

if ! command -v "$cc" > /dev/null; then
    echo "$script: it did not run: there is no C compiler"
    exit 0
fi
missing() {
    echo "$script: $1" >&2
    exit 2
}
command -v rt > /dev/null || missing "there is no rt, whose kit has the allocator's glue"
glue=$(dirname "$(dirname "$(readlink -f "$(command -v rt)")")")/c/liblibc_c.a
[ -f "$library" ] || missing "there is no library $library: \`rt lib\` in crates/fmp_c makes it"
library=$(cd "$(dirname "$library")" && pwd)/$(basename "$library")
[ ! -x "$fmp" ] || fmp=$(cd "$(dirname "$fmp")" && pwd)/$(basename "$fmp")

room=$(mktemp -d)
trap 'rm -rf "$room"' EXIT
cd "$room"
passed=0
failed=0

# verdict NAME PROBLEM: counts a case, which passed if there is no problem.
verdict() {
    if [ -z "$2" ]; then
        passed=$((passed + 1))
    else
        failed=$((failed + 1))
        echo "FAILED: $1: $2"
    fi
}

# compiled KIND COMPILER FLAG..: builds all programs into the folder KIND. Each warning is a fault.
compiled() {
    kind=$1
    shift
    mkdir "$kind"
    strict="-std=c11 -g -Wall -Wextra -Wpedantic -Wconversion -Wshadow -Werror -I$root/port/include -I$root/port"
    for source in "$root"/port/*.c "$root"/examples/c/*.c "$root"/checks/port/*.c "$root"/bench/*.c; do
        # shellcheck disable=SC2086
        "$@" $strict -c "$source" -o "$kind/$(basename "$source" .c).o" 2> errors ||
            verdict "$kind: $(basename "$source")" "it does not compile: $(head -c 300 errors)"
    done
    parts="system checked coroutine files overflow recording virtual live signals perform replaying"
    for part in $parts; do
        ar rc "$kind/libport.a" "$kind/$part.o"
    done
    for object in "$kind"/*.o; do
        name=$(basename "$object" .o)
        case " $parts " in *" $name "*) continue ;; esac
        "$@" "$object" "$kind/libport.a" "$library" "$glue" -pthread -o "${object%.o}" 2> errors ||
            verdict "$kind: $(basename "$object")" "it does not link: $(head -c 300 errors)"
    done
}

# examples KIND COMMAND..: each example prints its trace.
examples() {
    kind=$1
    shift
    for source in "$root"/examples/c/*.c; do
        name=$(basename "$source" .c)
        problem=
        example=$root/examples/$name
        "$@" "$kind/$name" "$example.cfg" "$example.steps" > output 2> errors || problem="status $?"
        cmp -s "$example.trace" output || problem="$problem, it prints another trace"
        [ ! -s errors ] || problem="$problem, it says: $(head -c 300 errors)"
        verdict "$kind: $name" "$problem"
    done
}

# replays KIND: the recording of each example, handed to a new kernel, gives its trace and states again.
replays() {
    kind=$1
    for source in "$root"/examples/c/*.c; do
        name=$(basename "$source" .c)
        problem=
        example=$root/examples/$name
        "$kind/$name" "$example.cfg" "$example.steps" "$name.calls" > output 2>&1 || problem="status $?"
        "$kind/replay" "$example.cfg" "$name.calls" > output 2> errors || problem="status $?: $(cat errors)"
        cmp -s "$example.trace" output || problem="$problem, its recording gives another trace"
        verdict "$kind: $name, replayed" "$problem"
    done
}

# real KIND COUNT MODE..: runs in real time that are over for each reason, and those of random systems, in each mode of
# FMP_PREEMPT; and the examples. Each recording gives the trace and the states again.
real() {
    kind=$1
    systems=$2
    shift 2
    for mode in "$@"; do
        problem=
        FMP_PREEMPT=$mode "$kind/real" ends > output 2>&1 || problem="status $?: $(head -c 300 output)"
        verdict "$kind: the ends of runs, $mode" "$problem"
        problem=
        FMP_PREEMPT=$mode python3 "$root/checks/port/real.py" "$PWD/$kind/real" "$systems" > output 2>&1 ||
            problem="status $?: $(head -c 1000 output)"
        verdict "$kind: random systems in real time, $mode" "$problem"
        [ -n "$problem" ] || cat output
    done
    for object in "$kind"/live-*; do
        name=${object#"$kind/live-"}
        problem=
        "$object" --times "$root/examples/$name.cfg" 200000 20 "$name.calls" > trace 2> errors || problem="status $?"
        plain/replay "$root/examples/$name.cfg" "$name.calls" > output 2>> errors || problem="$problem, no replay"
        cmp -s trace output || problem="$problem, its recording gives another trace"
        [ ! -s errors ] || problem="$problem, it says: $(head -c 300 errors)"
        verdict "$kind: $name in real time" "$problem"
    done
}

# A program may have all names that do not begin with fmp_.
names() {
    for source in "$root"/port/*.c; do
        nm -g --defined-only "plain/$(basename "$source" .c).o"
    done > output
    verdict "names of the port" "$(awk '$3 !~ /^fmp_/ { print $3 }' output)"
}

# performed KIND COMPILER FLAG..: the examples that are compiled, for real time.
performed() {
    kind=$1
    shift
    for source in "$root"/examples/c/*.c; do
        name=$(basename "$source" .c)
        "$@" -std=c11 -g -Dfmp_simulate=fmp_perform -I"$root/port/include" "$source" "$kind/libport.a" "$library" \
            "$glue" -pthread -o "$kind/live-$name" 2> errors ||
            verdict "$kind: $name" "it does not link: $(head -c 300 errors)"
    done
}

# A stack that overflows is found, and its task is named; and so is what memory is too little for.
failures() {
    for driver in live virtual; do
        problem=
        status=0
        plain/real overflow $driver > output 2>&1 || status=$?
        [ $status = 3 ] || problem="status $status"
        [ "$(cat output)" = "fmp: the stack of MAIN overflows" ] || problem="$problem, it says: $(head -c 300 output)"
        verdict "a stack that overflows, $driver" "$problem"
    done
    problem=
    for mode in call signal; do
        status=0
        (FMP_PREEMPT=$mode plain/real abort last.calls || exit $?) > output 2>&1 || status=$?
        [ $status = 134 ] || problem="$problem, status $status"
        [ "$(cat last.calls)" = "run 1 put 1" ] || problem="$problem, it recorded: $(head -c 300 last.calls)"
    done
    verdict "a task that aborts" "$problem"
    exits
    unread
    problem=
    plain/real limits > output 2>&1 || problem="status $?"
    case $(cat output) in
        "fmp: out of memory for the stack of T"*"fmp: out of memory"*"fmp: there is no thread for interrupts") ;;
        *) problem="$problem, it says: $(head -c 300 output)" ;;
    esac
    verdict "too little memory" "$problem"
    problem=
    dd if=/dev/null of=great.steps bs=1 seek=300000000 2> errors
    # shellcheck disable=SC2016
    refused 3 "file: great.steps" \
        sh -c 'ulimit -v 200000 && exec "$@"' sh plain/queue "$root/examples/queue.cfg" great.steps
    rm great.steps
    verdict "a text that memory does not hold" "$problem"
    problem=
    if [ -c /dev/full ]; then
        for program in "queue $root/examples/queue.cfg $root/examples/queue.steps" \
            "live-queue $root/examples/queue.cfg 200000 20"; do
            status=0
            # shellcheck disable=SC2086
            plain/$program /dev/full > output 2> errors || status=$?
            [ $status = 3 ] || problem="status $status"
            [ "$(cat errors)" = "file: /dev/full" ] || problem="$problem, it says: $(head -c 300 errors)"
        done
        verdict "a recording that cannot be written" "$problem"
        problem=
    fi
    refusals
    FMP_PREEMPT=always plain/live-queue "$root/examples/queue.cfg" 200000 20 > output 2> errors && problem="status 0"
    [ "$(cat errors)" = "fmp: FMP_PREEMPT is neither call nor signal: always" ] ||
        problem="$problem, it says: $(head -c 300 errors)"
    verdict "a preemption that there is not" "$problem"
}

# The recording of a program that a task ends by exit, or by a fault that malloc finds, is whole.
exits() {
    problem=
    echo 'NUM_PRC(1); CLASS(TCL_1) { CRE_TSK(T, { TA_ACT, 0, leave, 10, 256, NULL }); }' > exits.cfg
    printf 'run 1\nrun 1\n' > exits.steps
    for words in "exits.cfg exits.steps" "live exits.cfg 0 0" "live --last 1 exits.cfg 0 0"; do
        status=0
        # shellcheck disable=SC2086
        plain/exits $words exits.calls > output 2>&1 || status=$?
        [ $status = 7 ] || problem="$problem, status $status of $words"
        [ "$(cat exits.calls)" = "run 1 put 1" ] || problem="$problem, $words recorded: $(head -c 300 exits.calls)"
    done
    verdict "a task that exits" "$problem"
    problem=
    status=0
    (timeout -s KILL 60 plain/exits corrupt exits.cfg 0 0 exits.calls || exit $?) > output 2>&1 || status=$?
    [ $status = 134 ] || problem="status $status: $(head -c 300 output)"
    [ "$(cat exits.calls)" = "run 1 put 1" ] || problem="$problem, it recorded: $(head -c 300 exits.calls)"
    verdict "a task that breaks the memory of the C library" "$problem"
}

# A run without end whose output nobody reads any more is over, unless the signal of that is ignored here.
unread() {
    # shellcheck disable=SC2016
    sh -c 'kill -PIPE $$' && return 0
    {
        status=0
        plain/live-watchdog "$root/examples/watchdog.cfg" 100000 600000 || status=$?
        echo $status > status
    } | head -n 1 > output
    problem=
    [ "$(cat status)" = 141 ] || problem="status $(cat status)"
    verdict "output that nobody reads" "$problem"
}

# refused STATUS SAID COMMAND..: a command ends with this status, and says this last.
refused() {
    status=0
    wanted=$1
    said=$2
    shift 2
    "$@" > output 2> errors || status=$?
    [ $status = "$wanted" ] || problem="$problem, status $status of $*"
    [ "$(tail -n 1 errors)" = "$said" ] || problem="$problem, $* says: $(head -c 300 errors)"
}

# A step that is none of the system, a recording in place of a file that is read, and output that cannot be written.
refusals() {
    problem=
    cp "$root/examples/queue.cfg" own.cfg
    for row in "run 9:S2" "run 0:S2" "run 256:S2" "int 33:S2" "int 0:S2" "run 01:S1" "run :S1" "run 1 :S1" \
        "tick 1:S1" ":S1"; do
        printf 'tick\n%s\n' "${row%:*}" > own.steps
        refused 1 "steps:2: ${row#*:}" plain/queue own.cfg own.steps
    done
    verdict "steps that are none" "$problem"
    problem=
    for name in own.cfg own.steps; do
        refused 2 "plain/queue: the file RECORDING is one of those that are read" \
            plain/queue own.cfg own.steps "$name"
    done
    refused 2 "plain/live-queue: the file RECORDING is one of those that are read" \
        plain/live-queue own.cfg 200000 20 own.cfg
    cmp -s own.cfg "$root/examples/queue.cfg" || problem="$problem, the configuration is another one now"
    verdict "a recording over a file that is read" "$problem"
    problem=
    sed 's/CRE_DTQ(\([A-Z]*\), {[^,]*,/CRE_DTQ(\1, { 0x80,/' own.cfg > wrong.cfg
    said="cfg:$(grep -n CRE_DTQ wrong.cfg | cut -d : -f 1): B4 E_RSATR"
    echo old > old.calls
    refused 1 "$said" plain/queue wrong.cfg own.steps old.calls
    refused 1 "$said" plain/live-queue wrong.cfg 200000 20 old.calls
    [ "$(cat old.calls)" = old ] || problem="$problem, the recording of another run is gone"
    verdict "a configuration that is refused" "$problem"
    problem=
    for command in "plain/queue own.cfg $root/examples/queue.steps closed.calls" \
        "plain/live-queue own.cfg 200000 20 closed.calls"; do
        status=0
        # shellcheck disable=SC2086
        $command >&- 2> errors || status=$?
        [ $status = 3 ] || problem="$problem, status $status of $command"
        [ "$(cat errors)" = "file: -" ] || problem="$problem, $command says: $(head -c 300 errors)"
        plain/replay own.cfg closed.calls > output 2>> errors || problem="$problem, no replay of what $command did"
    done
    verdict "output that is closed" "$problem"
    [ -c /dev/full ] || return 0
    problem=
    for command in "plain/queue own.cfg $root/examples/queue.steps" "plain/live-queue own.cfg 200000 20"; do
        status=0
        # shellcheck disable=SC2086
        $command > /dev/full 2> errors || status=$?
        [ $status = 3 ] || problem="$problem, status $status of $command"
        [ "$(cat errors)" = "file: -" ] || problem="$problem, $command says: $(head -c 300 errors)"
    done
    verdict "output that cannot be written" "$problem"
    problem=
}

# Each example does what its task text does, in virtual and in real time; and the image of another configuration is
# refused. The images are made by the program `fmp`.
checked() {
    for source in "$root"/examples/c/*.c; do
        name=$(basename "$source" .c)
        problem=
        example=$root/examples/$name
        "$fmp" build "$example.cfg" "$example.src" "$name.img" > output 2>&1 || problem="no image: $(cat output)"
        plain/"$name" --image "$name.img" "$example.cfg" "$example.steps" > output 2> errors || problem="status $?"
        cmp -s "$example.trace" output || problem="$problem, it prints another trace"
        plain/"live-$name" --image "$name.img" "$example.cfg" 200000 20 "$name.calls" > trace 2>> errors ||
            problem="$problem, status $? in real time"
        plain/replay "$example.cfg" "$name.calls" > output 2>> errors || problem="$problem, no replay"
        cmp -s trace output || problem="$problem, its recording gives another trace"
        [ ! -s errors ] || problem="$problem, it says: $(head -c 300 errors)"
        verdict "checked: $name" "$problem"
    done
    problem=
    plain/queue --image sum.img "$root/examples/queue.cfg" "$root/examples/queue.steps" > output 2> errors &&
        problem="$problem, status 0 with the image of another configuration"
    [ "$(cat errors)" = "fmp: the image is not one of the configuration" ] ||
        problem="$problem, it says: $(head -c 300 errors)"
    sed 's/consume, 5/consume, 6/' "$root/examples/queue.cfg" > other.cfg
    plain/queue --image queue.img other.cfg "$root/examples/queue.steps" > output 2> errors &&
        problem="$problem, status 0 with a priority that the image has not"
    [ "$(cat errors)" = "fmp: the image is not one of the configuration" ] ||
        problem="$problem, it says: $(head -c 300 errors)"
    verdict "checked: another configuration" "$problem"
    problem=
    sed 's/snd_dtq/fmp_stop(2), &/' "$root/examples/c/queue.c" > faulty.c
    "$cc" -std=c11 -I"$root/port/include" faulty.c plain/libport.a "$library" "$glue" -pthread -o faulty 2> errors ||
        problem="it does not link: $(head -c 300 errors)"
    refused 1 "fmp: PRODUCER has the fault F_DIV; its text calls snd_dtq 1 42" \
        ./faulty --image queue.img "$root/examples/queue.cfg" "$root/examples/queue.steps"
    verdict "checked: a fault" "$problem"
}

# departures KIND COMMAND..: the program of examples/queue.c beside texts that do other things. It is over at the first
# of these, in virtual and in real time, and says what the function does and what its text does.
departures() {
    kind=$1
    shift
    while IFS=: read -r edit said; do
        problem=
        sed "$edit" "$root/examples/queue.src" > other.src
        "$fmp" build "$root/examples/queue.cfg" other.src other.img > output 2>&1 || problem="no image: $(cat output)"
        for words in "queue --image other.img $root/examples/queue.cfg $root/examples/queue.steps" \
            "live-queue --image other.img $root/examples/queue.cfg 200000 50000"; do
            # shellcheck disable=SC2086
            "$@" "$kind"/$words > output 2> errors && problem="$problem, status 0 of $words"
            [ "$(cat errors)" = "fmp: PRODUCER $said" ] || problem="$problem, it says: $(head -c 300 errors)"
        done
        verdict "$kind: PRODUCER $said" "$problem"
    done << 'END'
s/6 \* 7/6 * 8/:calls snd_dtq 1 42; its text calls snd_dtq 1 48
s/6 \* 7/6 \/ 0/:calls snd_dtq 1 42; its text has the fault F_DIV
s/snd_dtq.*;//:calls snd_dtq 1 42; its text ends
s/snd_dtq.*;/& act_tsk(CONSUMER);/:ends; its text calls act_tsk 2
END
}

# kills COUNT: runs that signals end at random moments.
kills() {
    problem=
    python3 "$root/checks/port/kills.py" "$PWD/plain/real" "$PWD/plain/replay" "$1" > output 2>&1 ||
        problem="status $?: $(head -c 1000 output)"
    verdict "runs that signals end" "$problem"
    [ -n "$problem" ] || cat output
}

# mistakes KIND COMMAND..: what no model knows.
mistakes() {
    kind=$1
    shift
    for name in handles bodies; do
        problem=
        "$@" "$kind/$name" > output 2> errors || problem="status $?: $(head -c 300 output)"
        [ ! -s errors ] || problem="$problem, it says: $(head -c 300 errors)"
        verdict "$kind: $name" "$problem"
    done
}

# Runs in real time under the detector of races of valgrind.
raced() {
    problem=
    valgrind --tool=helgrind --fair-sched=yes --quiet --error-exitcode=9 \
        --suppressions="$root/checks/port/helgrind.supp" \
        plain/real ends > output 2> errors || problem="status $?: $(head -c 1000 errors)"
    [ ! -s errors ] || problem="$problem, it says: $(head -c 1000 errors)"
    verdict "races" "$problem"
}

# random KIND COUNT SEED: random calls and random tasks beside the model.
random() {
    for name in sequences tasks; do
        problem=
        python3 "$root/checks/port/$name.py" "$PWD/$1/$name" "$2" "$3" > output 2>&1 || problem=$(head -c 1000 output)
        verdict "$1: $name" "$problem"
        [ -n "$problem" ] || cat output
    done
}

# restarted COUNT SEED: random tasks, and runs in real time, of a kernel whose counts begin again after 20 events each.
restarted() {
    problem=
    python3 "$root/checks/port/tasks.py" "$PWD/restarts/tasks" "$1" "$2" 20 > output 2>&1 ||
        problem=$(head -c 1000 output)
    verdict "restarts: tasks" "$problem"
    [ -n "$problem" ] || cat output
    real restarts 10 call
}

# forms COMPILER: each call of kernel.h hands in its function code and its arguments.
forms() {
    problem=
    python3 "$root/checks/port/forms.py" > forms.c
    "$1" -std=c11 -Wall -Wextra -Wpedantic -Wconversion -Werror -I"$root/port/include" forms.c -o forms 2> errors ||
        problem="it does not compile: $(head -c 300 errors)"
    ./forms > output 2>&1 || problem="$problem, status $?: $(head -c 300 output)"
    verdict "the calls of kernel.h" "$problem"
}

# The bodies that a configuration names and no function is there for are named, and nothing is run.
missing_bodies() {
    problem=
    plain/sum "$root/examples/queue.cfg" "$root/examples/queue.steps" > output 2> errors && problem="status 0"
    said="fmp: there is no function for the body produce
fmp: there is no function for the body consume"
    [ "$(cat errors)" = "$said" ] || problem="it says: $(head -c 300 errors)"
    [ ! -s output ] || problem="$problem, it prints a trace"
    verdict "bodies without a function" "$problem"
}

# A program is built of what `make install` copies, by the words of its pkg-config file.
installed() {
    problem=
    make -s -C "$root" LIBRARY="$library" PREFIX="$room/prefix" C_ROOM="$room/made" CC="$cc" install-c > output 2>&1 ||
        problem="make install-c: $(head -c 300 output)"
    if command -v pkg-config > /dev/null; then
        words=$(PKG_CONFIG_PATH=$room/prefix/lib/pkgconfig pkg-config --cflags --libs fmp) ||
            problem="no pkg-config file"
    else
        words="-I$room/prefix/include/fmp -L$room/prefix/lib -lfmp"
    fi
    # shellcheck disable=SC2086
    "$cc" "$root/examples/c/queue.c" $words -o installed 2> errors || problem="$problem, $(head -c 300 errors)"
    ./installed "$root/examples/queue.cfg" "$root/examples/queue.steps" > output 2>&1 || problem="$problem, status $?"
    cmp -s "$root/examples/queue.trace" output || problem="$problem, it prints another trace"
    verdict "the installed library" "$problem"
}

# The headers are those of C++ too.
headers() {
    printf '#include "%s"\n' fmp.h kernel.h virtual.h live.h > headers.cc
    problem=
    "$1" -std=c++11 -Wall -Wextra -Wpedantic -Werror -I"$root/port/include" -c headers.cc -o headers.o 2> errors ||
        problem=$(head -c 300 errors)
    verdict "the headers in C++" "$problem"
}

compiled plain "$cc" -O2
names
examples plain
replays plain
mistakes plain
random plain "$count" 1
forms "$cc"
missing_bodies
installed
performed plain "$cc" -O2
real plain 30 call signal
failures
kills 20
if [ -x "$fmp" ]; then
    checked
    departures plain
else
    echo "$script: there is no program $fmp: nothing is checked beside texts"
fi

compiled restarts "$cc" -O2 -DFMP_RESTART_AT=20
performed restarts "$cc" -O2
restarted $((count / 10 + 1)) 3000001

compiled contexts "$cc" -O2 -DFMP_UCONTEXT
examples contexts
mistakes contexts

case $("$cc" --version) in
    *clang*) other=gcc ;;
    *) other=clang ;;
esac
if command -v $other > /dev/null; then
    compiled other $other -O2
    examples other
    mistakes other
    random other $((count / 20 + 1)) 2000001
else
    echo "$script: there is no $other"
fi

if command -v c++ > /dev/null; then
    headers c++
fi

echo 'int main(void) { return 0; }' > empty.c
if "$cc" -fsanitize=address,undefined empty.c -o empty 2> errors && ./empty; then
    sanitizers="-O1 -fsanitize=address,undefined -fno-sanitize-recover=all"
    # shellcheck disable=SC2086
    compiled sanitized "$cc" $sanitizers
    # shellcheck disable=SC2086
    performed sanitized "$cc" $sanitizers
    real sanitized 10 call
    examples sanitized
    replays sanitized
    mistakes sanitized
    [ ! -x "$fmp" ] || departures sanitized
    random sanitized $((count / 20 + 1)) 1000001
else
    echo "$script: there are no sanitizers"
fi

if "$cc" -fsanitize=thread empty.c -o empty 2> errors && ./empty; then
    compiled threads "$cc" -O1 -fsanitize=thread -DFMP_UCONTEXT
    performed threads "$cc" -O1 -fsanitize=thread -DFMP_UCONTEXT
    real threads 10 call
else
    echo "$script: there is no sanitizer of threads"
fi

if command -v valgrind > /dev/null; then
    quiet='valgrind --quiet --error-exitcode=9 --leak-check=full --show-leak-kinds=all'
    # shellcheck disable=SC2086
    mistakes plain $quiet
    # shellcheck disable=SC2086
    examples plain $quiet
    # shellcheck disable=SC2086
    [ ! -x "$fmp" ] || departures plain $quiet
    raced
else
    echo "$script: there is no valgrind"
fi

echo "$script: $passed passed, $failed failed"
[ "$failed" -eq 0 ]
