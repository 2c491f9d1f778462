#!/bin/sh
# Succeeds where in a picture with one panel all lines from lane to lane stand before the texts of the lanes.
#
#   checks/view/behind.sh PICTURE
set -eu
last_line=$(grep -n -e 'class="ln q"' -e ' q o mg"' "$1" | tail -n 1 | cut -d: -f1)
first_text=$(grep -n -e '"e s8 ' -e '"wt q' -e '"k d' "$1" | head -n 1 | cut -d: -f1)
[ "$last_line" -lt "$first_text" ]
