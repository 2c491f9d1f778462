#!/bin/sh
# Runs each example on the proved program: its texts are accepted, its image is built, and its run prints the trace that
# stands beside it, to the byte. Each trace was worked out by hand from the rules.
#
#   checks/program/examples.sh [PROGRAM]
#
# PROGRAM is crates/fmp/out/fmp where it is not given, as `rt ci` or `rt run` leaves it.
set -eu
# shellcheck source-path=SCRIPTDIR source=harness.sh
. "$(dirname "$0")/harness.sh"
subject=$(located fmp "${1:-}")

systems='queue inversion flags watchdog pipeline migration interrupt sum'
for system in $systems; do
    run "$system: check" 0 ok none check "$system.cfg" "$system.src"
    attempt build "$system.cfg" "$system.src" image
    printf 'ok %d\n' "$(wc -c < image)" > size
    run "$system: build" 0 size none build "$system.cfg" "$system.src" image
    case $system in sum) bound=1000 ;; *) bound=100000 ;; esac
    run "$system: sim" 0 "$system.trace" none sim image "$system.steps" --bound "$bound"
    holds "$system: README" 'it is not told there' grep -q "^## \`$system\`" README.md
done

# Each trace is one of these, so that none stands here unseen.
for trace in *.trace; do
    case " $systems " in
        *" ${trace%.trace} "*) verdict "$trace" '' ;;
        *) verdict "$trace" 'it is the trace of no system that is run' ;;
    esac
done

finish
