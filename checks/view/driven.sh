#!/bin/sh
# Drives a system, and tells where its run has not as many events as the drive has steps.
#
#   checks/view/driven.sh IMAGE SEED
set -eu
fmp_view drive "$1" --events 60 --seed "$2" > driven.steps 2> driven.errors
steps=$(wc -l < driven.steps)
events=$(fmp sim "$1" driven.steps | grep '^[0-9]' | tail -n 1 | cut -d ' ' -f 1)
[ "$steps" -eq "$events" ] || echo "$steps steps, $events events"
