#!/bin/sh
# Usage: run_checks.sh FOLDER compare|write
#
# Runs convert, calls and clock of FOLDER. What they print is compared with the files in expected/, or written there.
#   nights.txt   what convert shows: two nights in which clocks are put back and on
#   list.txt     what convert makes of list.txt, as a file and as standard input
#   calls.txt    how many of the calls in calls/ are answered as they are stored
#   clock.txt    how much clock has looked at, and how many differences it has found
#   words.txt    wrong options, files and lines, with the reasons; output that cannot be written
set -eu
folder=$1
mode=$2
here=$(cd "$(dirname "$0")" && pwd)
failed=0

# hold NAME: what comes in is compared with a file in expected/, or written to it.
hold() {
    if [ "$mode" = write ]; then
        mkdir -p "$here/expected"
        cat >"$here/expected/$1"
    elif diff "$here/expected/$1" - >"$folder/$1.diff"; then
        echo "ok: $1"
    else
        echo "$1 differs:"
        head -20 "$folder/$1.diff"
        failed=1
    fi
}

# told STATUS COMMAND...: what a command says, whose exit status is to be this one; names of folders are left out.
told() {
    wanted=$1
    shift
    status=0
    "$@" >"$folder/told" 2>&1 || status=$?
    [ "$status" -eq "$wanted" ] || echo "exit status $status"
    sed "s|$folder/||g; s|$here/||g" "$folder/told"
}

# Commands whose output cannot be written: there is no room, or it is closed.
no_room() {
    "$@" >/dev/full
}
closed() {
    "$@" >&-
}

# Commands that are handed a folder, the list and wrong lines.
from_folder() {
    "$@" <"$here"
}
from_list() {
    "$@" <"$here/list.txt"
}
from_wrong() {
    "$@" <"$folder/wrong.txt"
}

list() {
    told 1 "$folder/convert" 60 "$here/list.txt" >"$folder/converted"
    cat "$folder/converted"
    told 1 from_list "$folder/convert" 60 - | sed 's/standard input, line/list.txt, line/' >"$folder/again"
    if cmp "$folder/converted" "$folder/again" 2>&1; then echo "standard input is converted alike"; fi
}

# The calls without their results are played, and must give the file again.
calls() {
    for file in "$here"/calls/*.txt; do
        sed 's/ = .*//' "$file" >"$folder/played"
        "$folder/calls" <"$folder/played" >"$folder/answered" 2>&1 || echo "exit status $?"
        cmp "$folder/answered" "$file" 2>&1 | sed "s|$folder/||g; s|$here/||g"
        echo "${file##*/}: $(grep -c ' = ' "$file") calls"
    done
}

words() {
    told 0 "$folder/convert" --help
    told 0 "$folder/clock" --help
    told 2 "$folder/convert" --nothing
    told 2 "$folder/convert" 60
    told 2 "$folder/convert" 60 one two
    told 2 "$folder/convert" 180 "$here/list.txt"
    told 2 "$folder/convert" sixty "$here/list.txt"
    told 2 "$folder/convert" 60 "$folder/none.txt"
    told 2 "$folder/convert" 60 "$here/calls"
    told 2 from_folder "$folder/convert" 60 -
    told 2 no_room "$folder/convert"
    told 2 closed "$folder/convert"
    told 2 no_room "$folder/convert" --help
    told 2 "$folder/clock" --nothing
    told 2 "$folder/clock" --all --all
    told 2 "$folder/calls" "$here/calls/directed.txt"
    told 2 from_folder "$folder/calls"
    printf '%s\n' 'utc 60 2024 10 27 2 30' 'local 60 28833150 7 7' 'local 60  28833150 7' \
        'utc 60 2024 10 27 2 30 4294967296' 'local 60 28833150 5000' >"$folder/wrong.txt"
    told 2 from_wrong "$folder/calls"
}

told 0 "$folder/convert" >"$folder/said"
hold nights.txt <"$folder/said"
list >"$folder/said"
hold list.txt <"$folder/said"
calls >"$folder/said"
hold calls.txt <"$folder/said"
told 0 "$folder/clock" >"$folder/said"
hold clock.txt <"$folder/said"
words >"$folder/said"
hold words.txt <"$folder/said"
exit $failed
