#!/bin/sh
# Runs the proved program over real files, and compares its status, its standard output, its standard error and the
# files that it leaves, each to the byte. What is expected is written out here, or counted by the rules, and is never
# taken from the program.
#
#   checks/program/program.sh [PROGRAM]
#
# PROGRAM is crates/fmp/out/fmp where it is not given, as `rt ci` or `rt run` leaves it.
set -eu
# shellcheck source-path=SCRIPTDIR source=harness.sh
. "$(dirname "$0")/harness.sh"
subject=$(located fmp "${1:-}")

# full NAME WORD..: the program finds no place on standard output, and so ends with status 3.
full() {
    name=$1
    shift
    status=0
    "$subject" "$@" > /dev/full 2> errors || status=$?
    printf 'file: -\n' > line
    problem=
    [ "$status" -eq 3 ] || problem="status $status; "
    cmp -s line errors || problem="${problem}standard error '$(cat errors)'"
    verdict "$name" "$problem"
}

# The tables of an image with one task: its row, and that there is nothing else.
tables_of_one_task() {
    printf '\001\002T1\002\000\000\000\000\000\012\000\001\000\000\001\000\000\000\000\000\000\000\000\000\000'
}

# misused MESSAGE USAGE: what is said of a command line that is not as it should be.
misused() { printf "error: %s\n\nUsage: %s\n\nFor more information, try '--help'.\n" "$1" "$2"; }

# ---- two texts, their image and its run

printf 'NUM_PRC(1);\nCLASS(TCL_1) {\nCRE_TSK(T1,{TA_ACT,0,main,10,256,NULL});\n}\n' > a.cfg
printf 'task main { put(7); }\n' > b.src
printf 'run 1\nrun 1\nrun 1\n' > c.steps
printf 'run 1\n' > one.steps
cp a.cfg kept.cfg
cp b.src kept.src
{
    printf 'FMPI\003\000\001\001\000\001\001\003\000'
    printf '\001\007\000\000\000\000\010\001\377\377\000\001\011\000\000\000\000\000'
    tables_of_one_task
} > a.want
printf '0 p1 T1 starts\n0 p1 > T1\n1 p1 T1 put(7) E_OK\n2 p1 T1 end\nT1 DORMANT p1 10\n' > a.trace
printf '0 p1 T1 starts\n0 p1 > T1\nT1 RUNNING p1 10\n' > a.setup
printf 'ok 57\n' > ok57

run 'the stored run' 0 a.trace none
run 'check' 0 ok none check a.cfg b.src
run 'build' 0 ok57 none build a.cfg b.src a.img
same 'the image' a.want a.img
run 'build over an image' 0 ok57 none build a.cfg b.src a.img
same 'the image that was there' a.want a.img
head -c 100000 /dev/zero > long.img
run 'build over a longer file' 0 ok57 none build a.cfg b.src long.img
same 'the longer file that was there' a.want long.img
run 'sim' 0 a.trace none sim a.img c.steps
run 'sim at bound 2' 0 a.trace none sim a.img c.steps --bound 2
run 'sim at bound 1' 0 a.trace none sim --bound=1 a.img c.steps
run 'sim of one step at bound 1' 0 a.setup none sim --bound=1 a.img one.steps
run 'sim without events' 0 a.setup none sim a.img none
# came NAME INPUT WORD.. IMAGE: fmp host on these words, with the file INPUT as its standard input, says what the file
# `came` has, and prints what fmp sim prints over its journal.
came() {
    name=$1 input=$2
    shift 2
    for image in "$@"; do :; done
    status=0
    "$subject" host "$@" host.journal < "$input" > hosted 2> errors || status=$?
    holds "$name: status" "it is $status" [ "$status" = 0 ]
    same "$name: what came" came errors
    "$subject" sim "$image" host.journal > simulated || true
    same "$name: the trace" simulated hosted
}

# one processor makes the same journal each time: its turns that do something
printf 'run 1\nrun 1\n' > host.want
printf 'tick\ntick\n' > ticks.want
printf '0 p1 T1 starts\n0 p1 > T1\n1 tick 1\n2 tick 2\nT1 RUNNING p1 10\n' > ticks.trace
cp long.img host.journal
run 'host' 0 a.trace none host a.img host.journal --turns 3 --ticks 0
same 'the journal, over a longer file' host.want host.journal
run 'sim of the journal' 0 a.trace none sim a.img host.journal
run 'host at bound 2' 0 a.trace none host --bound=2 a.img host.journal --ticks=0 --turns=2
same 'the journal at bound 2' host.want host.journal
# its first turn keeps its place
run 'host at bound 1' 0 a.trace none host a.img host.journal --turns 4 --ticks 0 --bound 1
same 'the journal at bound 1' c.steps host.journal
run 'host of ticks alone' 0 ticks.trace none host a.img host.journal --turns 0 --ticks 2
same 'the journal of ticks' ticks.want host.journal
# by the clock, and by the lines of standard input: no outcome depends on how fast the machine is
printf 'ticks 0, interrupts 0, runs 2, lines 0\n' > came
run 'host by the clock without ticks' 0 a.trace came host a.img host.journal --turns 3 --ticks 0 --tick-us 1000000
same 'the journal by the clock without ticks' host.want host.journal
printf 'ticks 3, interrupts 0, runs 2, lines 0\n' > came
began=$(date +%s%N)
came 'host by the clock' none --turns 9 --ticks 3 --tick-us 100000 a.img
took=$((($(date +%s%N) - began) / 1000000))
holds 'three ticks, one in 100 ms' "it took $took ms" [ "$took" -ge 290 ]
printf 'int 4\nint 03\nint 33\n int 3\nint 3x\nrun 1\n\nint 3' > lines
printf 'ticks 0, interrupts 1, runs 12, lines 8\n' > came
"$subject" build interrupt.cfg interrupt.src interrupt.img > output
came 'a line that raises an interrupt, of eight' lines --turns 90 --ticks 0 --int 3 interrupt.img
# more lines than interrupts are raised
yes 'int 3' | head -n 70000 > lines
status=0
"$subject" host interrupt.img host.journal --turns 90 --ticks 0 --int 3 < lines > hosted 2> errors || status=$?
holds 'more lines than interrupts: status' "it is $status" [ "$status" = 0 ]
"$subject" sim interrupt.img host.journal > simulated || true
same 'more lines than interrupts: the trace' simulated hosted
# standard input stays open, and no line comes
mkfifo open.pipe
exec 9<> open.pipe
printf 'ticks 3, interrupts 0, runs 2, lines 0\n' > came
came 'host by the clock while standard input stays open' open.pipe --turns 9 --ticks 3 --tick-us 1000 --int 3 a.img
exec 9>&-
same 'the image that was run' a.want a.img
same 'the configuration afterwards' kept.cfg a.cfg
same 'the task text afterwards' kept.src b.src

says 'texts in the other order' 1 'cfg:1: B1' check b.src a.cfg
says 'the configuration twice' 1 'src:1: B1' check a.cfg a.cfg
says 'the task text twice' 1 'cfg:1: B1' check b.src b.src
says 'the image twice' 1 'steps:1: S1' sim a.img a.img
says 'image and steps in the other order' 1 'image: L2' sim c.steps a.img
printf 'NUM_PRC(1);\nCLASS(TCL_1) {\nCRE_SEM(S,{TA_TFIFO,2,1});\n}\n' > fault.cfg
printf 'task main {\n  put(7);\n  put(;\n}\n' > fault.src
says 'a fault of the configuration' 1 'cfg:3: B4 E_PAR' check fault.cfg b.src
says 'a fault of the task text' 1 'src:3: B1' check a.cfg fault.src
says 'no image of a faulty text' 1 'src:3: B1' build a.cfg fault.src fault.img
absent 'no image of a faulty text' fault.img
printf 'run 1\nrun 2\n' > range.steps
says 'a processor that is not there' 1 'steps:2: S2' sim a.img range.steps
says 'no turns and no ticks' 1 'host: H4' host a.img fault.journal --turns 0 --ticks 0
says 'interrupts count' 1 'host: H4' host a.img fault.journal --turns 0 --ticks 983041 --int 1
says 'a turn more than 2^20' 1 'host: H4' host a.img fault.journal --turns 1048576 --ticks 1
says 'the image is judged before turns and ticks' 1 'image: L2' host c.steps fault.journal --turns 0 --ticks 0
absent 'no journal of a fault' fault.journal

# ---- files that cannot be read or written

mkdir folder
says 'a configuration that is missing' 3 'file: missing.cfg' check missing.cfg b.src
says 'a task text that is missing' 3 'file: missing.src' check a.cfg missing.src
says 'both missing: the first' 3 'file: missing.cfg' check missing.cfg missing.src
says 'all is read before any is judged' 3 'file: missing.src' check fault.cfg missing.src
says 'an image that is missing' 3 'file: missing.img' sim missing.img c.steps
says 'steps that are missing' 3 'file: missing.steps' sim a.img missing.steps
says 'a folder as the configuration' 3 'file: folder' check folder b.src
says 'a folder as the task text' 3 'file: folder' check a.cfg folder
says 'a folder as the image' 3 'file: folder' sim folder c.steps
says 'no image without its text' 3 'file: missing.src' build a.cfg missing.src none.img
absent 'no image without its text' none.img
says 'an empty configuration' 1 'cfg:1: B1' check none b.src
says 'an empty image' 1 'image: L1' sim none c.steps
says 'an image to host that is missing' 3 'file: missing.img' host missing.img none.journal --turns 1 --ticks 1
absent 'no journal without its image' none.journal
says 'JOURNAL in no folder' 3 'file: nowhere/a.journal' host a.img nowhere/a.journal --turns 1 --ticks 1
says 'JOURNAL is a folder' 3 'file: folder' host a.img folder --turns 1 --ticks 1
says 'OUT in no folder' 3 'file: nowhere/a.img' build a.cfg b.src nowhere/a.img
says 'OUT is a folder' 3 'file: folder' build a.cfg b.src folder
if [ -w /dev/full ]; then
    says 'OUT on a full device' 3 'file: /dev/full' build a.cfg b.src /dev/full
    rm -f a.img
    full 'standard output is full' build a.cfg b.src a.img
    same 'the image is written before anything is printed' a.want a.img
    says 'JOURNAL on a full device' 3 'file: /dev/full' host a.img /dev/full --turns 3 --ticks 0
    rm -f host.journal
    full 'host, standard output is full' host a.img host.journal --turns 3 --ticks 0
    same 'the journal is written before anything is printed' host.want host.journal
    full 'the stored run, standard output is full'
fi

# ---- an OUT that is one of the inputs

misused 'the file OUT is one of the two that are read' 'fmp build <CFG> <SRC> <OUT>' > refused
ln a.cfg hard.cfg
ln -s b.src soft.src
for out in a.cfg ./a.cfg folder/../a.cfg hard.cfg "$room/a.cfg" b.src ./b.src soft.src; do
    run "OUT is an input: $out" 2 none refused build a.cfg b.src "$out"
done
run 'OUT is an input that is missing' 2 none refused build missing.cfg b.src missing.cfg
same 'the configuration that was no OUT' kept.cfg a.cfg
same 'the task text that was no OUT' kept.src b.src
absent 'an input that was missing' missing.cfg
misused 'the file JOURNAL is the image that is read' \
    'fmp host [OPTIONS] --turns <T> --ticks <K> <IMAGE> <JOURNAL>' > refused
ln a.img hard.img
ln -s a.img soft.img
for journal in a.img ./a.img hard.img soft.img; do
    run "JOURNAL is the image: $journal" 2 none refused host a.img "$journal" --turns 1 --ticks 1
done
same 'the image that was no JOURNAL' a.want a.img

# ---- the command line

printf 'fmp 0.1.0\n' > version
run 'the version' 0 version none --version
# what is no number of an option's range: its words, the option and the range
while IFS='|' read -r words option range; do
    {
        printf "error: invalid value '%s' for '%s': it must be %s, in decimal digits\n\n" \
            "${words##* }" "$option" "$range"
        printf "For more information, try '--help'.\n"
    } > range
    # shellcheck disable=SC2086
    run "out of range: $words" 2 none range $words
done << 'END'
sim a.img c.steps --bound 0|--bound <N>|1 to 2^48
sim a.img c.steps --bound 281474976710657|--bound <N>|1 to 2^48
sim a.img c.steps --bound 1e6|--bound <N>|1 to 2^48
sim a.img c.steps --bound -1|--bound <N>|1 to 2^48
host a.img j --ticks 1 --turns -12|--turns <T>|0 to 2^20
host a.img j --ticks 1 --turns 1048577|--turns <T>|0 to 2^20
host a.img j --turns 1 --ticks x|--ticks <K>|0 to 2^20
host a.img j --turns 1 --ticks 1 --tick-us 0|--tick-us <U>|1 to 1000000
host a.img j --turns 1 --ticks 1 --int 33|--int <I>|1 to 32
END
called=$(basename "$subject") # a usage of words that clap refuses names the program as it was called
misused "$(printf "unrecognized subcommand 'run'\n\n  tip: 'fmp_view run'")" "$called <COMMAND>" > refused
run 'a command of fmp_view' 2 none refused run a.cfg b.src
misused "unexpected argument '--seed' found" "$called sim <IMAGE> <STEPS>" > refused
run 'an option of fmp_view' 2 none refused sim a.img c.steps --seed 4
run 'a bound of 2^48' 0 a.trace none sim a.img c.steps --bound 281474976710656
for words in run 'check a.cfg' 'build a.cfg b.src' 'sim a.img' 'check a.cfg b.src c.steps' '--frob' \
    'sim a.img c.steps --bound x' 'host a.img' 'host a.img j' 'host a.img j --turns 1' 'host a.img j --ticks 1' \
    'host a.img --turns 1 --ticks 1' 'host a.img j k --turns 1 --ticks 1' 'host a.img j --turns 1048577 --ticks 1' \
    'host a.img j --turns 1 --ticks 1048577' 'host a.img j --turns x --ticks 1' 'host a.img j --turns 1 --ticks -1' \
    'host a.img j --turns 1 --ticks 1 --bound 0' 'host a.img j --turns 1 --ticks 1 --tick-us 0' \
    'host a.img j --turns 1 --ticks 1 --tick-us 1000001' 'host a.img j --turns 1 --ticks 1 --int 0' \
    'host a.img j --turns 1 --ticks 1 --int 33' 'host a.img j --turns 1 --ticks 1 --int 3 --int 3'; do
    # shellcheck disable=SC2086
    writes "words: $words" 2 errors $words
done
for words in --help 'check --help' 'build --help' 'sim --help' 'host --help'; do
    # shellcheck disable=SC2086
    writes "words: $words" 0 output $words
    verdict "no line of more than 100 columns: $words" "$(awk 'length > 100' output)"
    # shellcheck disable=SC2013
    for example in $(grep -o 'examples/[a-z.]*' output); do
        holds "$words: $example" 'there is no such file' [ -f "$root/$example" ]
    done
done
writes 'a word that is no text' 2 errors check "$(printf '\377')" b.src

# ---- texts at their limit, 1048576 bytes

padded() { # padded FILE BYTES: the file, and spaces up to this many bytes
    cat "$1"
    head -c $(($2 - $(wc -c < "$1"))) /dev/zero | tr '\0' ' '
}
padded a.cfg 1048576 > full.cfg
padded a.cfg 1048577 > over.cfg
padded a.cfg 3000000 > far.cfg
padded b.src 1048576 > full.src
padded b.src 1048577 > over.src
run 'a configuration of 1 MiB' 0 ok none check full.cfg b.src
run 'a task text of 1 MiB' 0 ok none check a.cfg full.src
run 'both of 1 MiB' 0 ok57 none build full.cfg full.src full.img
same 'the image of two texts of 1 MiB' a.want full.img
says 'a configuration of 1 MiB and a byte' 1 'cfg:1: B5' check over.cfg b.src
says 'a configuration of 3 MB' 1 'cfg:1: B5' check far.cfg b.src
says 'a task text of 1 MiB and a byte' 1 'src:1: B5' check a.cfg over.src
printf 'x' | cat a.want - > more.img
says 'a byte after an image' 1 'image: L6' sim more.img c.steps
head -c 56 a.want > less.img
says 'an image without its last byte' 1 'image: L1' sim less.img c.steps
{ printf 'FMPI\001'; tail -c 52 a.want; } > first.img
run 'an image of the first version' 0 a.trace none sim first.img c.steps
{ printf 'FMPI\002'; tail -c 52 a.want; } > before.img
run 'an image of the version before' 0 a.trace none sim before.img c.steps
{ printf 'FMPI\004'; tail -c 52 a.want; } > after.img
says 'an image of a version to come' 1 'image: L3' sim after.img c.steps

# ---- bytes that some systems change: CR and LF

printf 'run 1\r\nrun 1\r\n' > cr.steps
says 'CR in steps' 1 'steps:1: S1' sim a.img cr.steps
printf 'NUM_PRC(1);\r\nCLASS(TCL_1) {\r\nCRE_TSK(T1,{TA_ACT,0,main,10,256,NULL});\r\n}\r\n' > cr.cfg
printf 'task main { put(2573); put(3338); }\r\n' > cr.src
{
    printf 'FMPI\003\000\001\001\000\001\001\005\000'
    printf '\001\015\012\000\000\000\010\001\377\377\000\001'
    printf '\001\012\015\000\000\000\010\001\377\377\000\001\011\000\000\000\000\000'
    tables_of_one_task
} > cr.want
{
    printf '0 p1 T1 starts\n0 p1 > T1\n1 p1 T1 put(2573) E_OK\n2 p1 T1 put(3338) E_OK\n'
    printf '3 p1 T1 end\nT1 DORMANT p1 10\n'
} > cr.trace
printf 'ok 69\n' > ok69
run 'CR in both texts' 0 ok69 none build cr.cfg cr.src cr.img
same 'CR and LF in an image' cr.want cr.img
run 'CR and LF in an image that is run' 0 cr.trace none sim cr.img c.steps

# ---- an image of 393249 bytes: 32767 calls

puts=32767
awk -v n=$puts 'BEGIN { printf "task main {"; for (i = 0; i < n; i++) printf " put(1);"; print " }" }' > large.src
printf '\001\001\000\000\000\000\010\001\377\377\000\001' > calls
twice=1
while [ $twice -lt 32768 ]; do
    cat calls calls > calls.twice
    mv calls.twice calls
    twice=$((twice * 2))
done
{
    printf 'FMPI\003\000\001\001\000\001\001\377\377'
    head -c $((12 * puts)) calls
    printf '\011\000\000\000\000\000'
    tables_of_one_task
} > large.want
printf 'ok 393249\n' > ok_large
run 'build a large image' 0 ok_large none build a.cfg large.src large.img
same 'the large image' large.want large.img
awk -v n=$puts 'BEGIN {
    print "0 p1 T1 starts\n0 p1 > T1"
    for (i = 1; i <= n; i++) print i " p1 T1 put(1) E_OK"
    print n + 1 " p1 T1 end\nT1 DORMANT p1 10"
}' > large.trace
awk -v n=$((puts + 2)) 'BEGIN { for (i = 0; i < n; i++) print "run 1" }' > large.steps
run 'run a large image' 0 large.trace none sim large.img large.steps
if mkfifo pipe 2> /dev/null; then
    cat large.want > pipe &
    run 'a large image through a pipe' 0 large.trace none sim pipe large.steps
    kill $! 2> /dev/null || true # where the program did not read it
    "$subject" sim large.img large.steps 2> errors | cat > output
    same 'a large trace into a pipe' large.trace output
fi
head -c 65536 large.want > cut.img
says 'the first 65536 bytes of a large image' 1 'image: L1' sim cut.img c.steps
awk 'BEGIN { printf "task main {"; for (i = 0; i < 32768; i++) printf " put(1);"; print " }" }' > larger.src
says 'one call more than a body may have' 1 'src:1: B5' check a.cfg larger.src

# ---- 255 tasks, and 255 objects of each kind

awk 'BEGIN {
    print "NUM_PRC(1);\nCLASS(TCL_1) {"
    for (i = 1; i <= 255; i++) {
        printf "CRE_TSK(T%d,{TA_ACT,0,d,1,256,NULL});\n", i
        printf "CRE_SEM(S%d,{TA_TFIFO,1,1});\nCRE_FLG(F%d,{TA_WMUL,0});\n", i, i
        printf "CRE_DTQ(Q%d,{TA_TFIFO,255,NULL});\nCRE_MBX(X%d,{TA_MFIFO,16,NULL});\nCRE_MSG(G%d,{1});\n", i, i, i
        printf "CRE_SHR(W%d,{%d});\nCRE_SPN(L%d,{0});\nCRE_CYC(C%d,{TA_NULL,0,h,1,0});\n", i, i, i, i
    }
    for (i = 1; i <= 32; i++) printf "DEF_INH(%d,{TA_HLNG,h});\n", i
    print "}"
}' > many.cfg
printf 'task d { dly_tsk(5); }\nhandler h { }\n' > many.src
# a name and its length take 1167 bytes for 255 objects of a letter and a number
names=1167
bodies=$((1 + 5 + 3 * 6 + 5 + 6))
waiting=$((1 + names + 255 * 5 + 1 + names + 255 * 3 + 1 + names + 255 * 2 + 1 + names + 255 * 2))
rest=$((1 + names + 255 + 1 + names + 255 * 4 + 1 + names + 1 + names + 255 * 15 + 1 + 32 * 3))
printf 'ok %d\n' $((7 + bodies + 1 + names + 255 * 13 + waiting + rest)) > ok_many
run 'build 255 objects of each kind' 0 ok_many none build many.cfg many.src many.img
awk 'BEGIN { for (i = 0; i < 255; i++) print "run 1"; for (i = 0; i < 6; i++) print "tick" }' > many.steps
awk 'BEGIN {
    for (i = 1; i <= 255; i++) print "0 p1 T" i " starts"
    print "0 p1 > T1"
    for (i = 1; i <= 255; i++) print i " p1 T" i " dly_tsk(5) wait\n" i " p1 > " (i < 255 ? "T" (i + 1) : "-")
    for (i = 1; i <= 6; i++) print 255 + i " tick " i
    for (i = 1; i <= 255; i++) print "261 p1 T" i " gets E_OK"
    print "261 p1 > T1"
    for (i = 1; i <= 255; i++) print "T" i (i == 1 ? " RUNNING" : " READY") " p1 1"
}' > many.trace
run 'run 255 objects of each kind' 0 many.trace none sim many.img many.steps
awk '{ print } /CRE_TSK\(T255/ { print "CRE_TSK(T256,{TA_ACT,0,d,1,256,NULL});" }' many.cfg > too_many.cfg
line=$(awk '/CRE_TSK\(T256/ { print NR }' too_many.cfg)
says 'one task more' 1 "cfg:$line: B5" check too_many.cfg many.src

# ---- out of memory: 12 MiB are enough for a short text, and not for the calls of a long one

printf '#!/bin/sh\nulimit -v 12288\nexec "%s" "$@"\n' "$subject" > scant
chmod +x scant
whole=$subject subject=./scant
awk 'BEGIN { print "task main {"; for (i = 0; i < 130000; i++) print "put(7);"; print "}" }' > calls.src
run 'little memory' 0 ok none check a.cfg b.src
says 'too little memory' 3 'memory' check a.cfg calls.src
subject=$whole

# ---- a trace of 2^20 events

printf 'NUM_PRC(1);\n' > empty.cfg
printf 'FMPI\003\000\001\000\000\000\000\000\000\000\000\000\000\000' > empty.want
printf 'ok 18\n' > ok18
run 'build of nothing' 0 ok18 none build empty.cfg none empty.img
same 'the image of nothing' empty.want empty.img
awk 'BEGIN { for (i = 0; i < 1048576; i++) print "tick" }' > long.steps
awk 'BEGIN { for (i = 1; i <= 1048576; i++) print i " tick " i }' > long.trace
run 'a trace of 2^20 events' 0 long.trace none sim empty.img long.steps
printf 'x\n' | cat long.steps - > longer.steps
says 'one event more' 1 'steps:1048577: S3' sim empty.img longer.steps
run '2^20 ticks by a thread' 0 long.trace none host empty.img long.journal --turns 0 --ticks 1048576
same 'a journal of 2^20 events' long.steps long.journal
run '2^20 turns that do nothing' 0 none none host empty.img long.journal --turns 1048576 --ticks 0
same 'a journal of no events' none long.journal
says 'one tick more' 1 'host: H4' host empty.img long.journal --turns 1048576 --ticks 1

finish
