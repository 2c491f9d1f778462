#!/bin/sh
# Makes random runs in 1, 2, 3, 4 and 64 threads, and tells what of their files, their output and their status differs.
#
#   checks/view/threads.sh CFG SRC --expect FILE ..
set -u
for jobs in 1 2 3 4 64; do
    fmp_view test "$@" --jobs $jobs --lcov $jobs.info --coverage $jobs.table --junit $jobs.xml \
        > $jobs.steps 2> $jobs.said
    echo $? > $jobs.status
    for it in info table xml steps said status; do cmp 1.$it $jobs.$it; done
done
