# shellcheck shell=sh
# What examples.sh and program.sh share: a folder to work in, how a program is run and judged, the last line.
#
#   . "$(dirname "$0")/harness.sh"     at the head of a script
#   subject=$(located fmp "${1:-}")    the program that the cases run
#   finish                             at the end
#
# A script works in a folder of its own, which is removed at the end. In it are a copy of the examples, the empty file
# `none`, the file `ok` of the line "ok", and the files `output` and `errors`: what the last run wrote to standard
# output and to standard error.
set -eu

# Removes the folder, and says so where a script ends before its last case: where a command that is no case fails.
leave() {
    cd /
    rm -rf "$room"
    if [ -z "$finished" ] && [ $((passed + failed)) -gt 0 ]; then
        echo "$script: it stopped after $passed passed, $failed failed" >&2
    fi
}

LC_ALL=C
export LC_ALL
root=$(cd "$(dirname "$0")/../.." && pwd)
script=checks/program/$(basename "$0")
called_in=$PWD
passed=0
failed=0
finished=
room=$(mktemp -d)
trap leave EXIT
cd "$room"
cp "$root"/examples/*.* .
: > none
printf 'ok\n' > ok

# located CRATE PATH: prints where the program of a crate is: at PATH, or where `rt ci` and `rt run` leave it.
located() {
    path=${2:-$root/crates/$1/out/$1}
    case $path in /*) ;; *) path=$called_in/$path ;; esac
    if [ ! -x "$path" ]; then
        echo "$script: there is no program $path" >&2
        exit 2
    fi
    echo "$path"
}

# verdict NAME PROBLEM: counts a case, which passed where the problem is empty.
verdict() {
    if [ -z "$2" ]; then
        passed=$((passed + 1))
    else
        failed=$((failed + 1))
        echo "FAILED: $1: $2"
    fi
}

# holds NAME PROBLEM COMMAND..: the command succeeds.
holds() {
    name=$1 problem=$2
    shift 2
    if "$@"; then problem=; fi
    verdict "$name" "$problem"
}

# same NAME WANTED FILE: the file FILE has the bytes of the file WANTED.
same() { holds "$1" "the file $3 differs" cmp -s "$2" "$3"; }

# absent NAME FILE: there is no such file.
absent() { holds "$1" "there is a file $2" [ ! -e "$2" ]; }

# attempt WORD..: runs $subject on these words, and leaves its status in $status.
attempt() {
    status=0
    # shellcheck disable=SC2154
    "$subject" "$@" > output 2> errors < /dev/null || status=$?
}

# run NAME STATUS OUTPUT ERRORS WORD..: $subject on these words ends with this status, and writes the bytes of the files
# OUTPUT and ERRORS to standard output and standard error.
run() {
    name=$1 wanted_status=$2 wanted_output=$3 wanted_errors=$4
    shift 4
    attempt "$@"
    problem=
    [ "$status" -eq "$wanted_status" ] || problem="status $status, not $wanted_status; "
    cmp -s "$wanted_output" output || problem="${problem}standard output differs; "
    cmp -s "$wanted_errors" errors || problem="${problem}standard error differs: '$(head -c 200 errors)'"
    verdict "$name" "$problem"
}

# says NAME STATUS LINE WORD..: $subject prints nothing, and this one line on standard error.
says() {
    name=$1 wanted_status=$2
    printf '%s\n' "$3" > line
    shift 3
    run "$name" "$wanted_status" none line "$@"
}

# writes NAME STATUS FILE WORD..: $subject ends with this status, and writes something to FILE, which is `output` or
# `errors`, and nothing to the other.
writes() {
    name=$1 wanted_status=$2 written=$3
    shift 3
    attempt "$@"
    problem=
    [ "$status" -eq "$wanted_status" ] || problem="status $status, not $wanted_status; "
    for file in output errors; do
        if [ "$file" = "$written" ]; then
            [ -s "$file" ] || problem="${problem}nothing on standard $file; "
        else
            [ ! -s "$file" ] || problem="${problem}'$(head -c 200 "$file")' on standard $file; "
        fi
    done
    verdict "$name" "$problem"
}

# finish: the last line, and the status of the script: 0 where no case failed.
finish() {
    finished=yes
    echo "$script: $passed passed, $failed failed"
    [ "$failed" -eq 0 ]
}
