#!/bin/sh
# Usage: run_checks.sh FOLDER compare|write
#
# Runs hello, day, host, restart, dump and show_journal of FOLDER, ../desk.py over its shared object where python3 is
# there, and check_journal where it is proved and built. What they print is compared with the files in expected/, or
# written there.
#   hello.txt      what ../hello.c prints
#   day.txt        what day.c prints: sessions of one call, a wait, and a card that is read and written out again
#   days.txt       how many lines day has played of the scripts in days/, each with its answer, how many differ, and
#                  how many journals of their stores are written and are ok for show_journal
#   desk.txt       what ../desk.py prints
#   timeline.txt   the host's rounds, from begin to end
#   restart.txt    at how many points the host was killed and restarted
#   asked.txt      the image that it leaves where two sessions are asked, and the parties of its picture
#   dump.txt       the image that it saves in the middle, and the holders of four keys
#   middle.dot     the same image as a picture; docs/middle.svg is drawn from it
#   damaged.txt    the same image with a member's chain that leads into itself, in full
#   parts.txt      the image damaged in twelve ways, one for each part of soundness; each can be drawn too
#   short.txt      images that are cut short, and older ones, must be turned down
#   journal.txt    the host's journal, each call with its answer, and whether it is the one that check_journal is proved
#                  to be run on (crates/check_journal/stdin)
#   spoiled.txt    what show_journal finds in that journal with one thing changed, in eight ways
#   shown.txt      its verdicts on the journals of crates/check_journal/data
#   verdicts.txt   what check_journal prints of the host's journal, and of it with one thing changed; for how many of the
#                  scripts' journals it prints ok
#   words.txt      wrong options and files, with the reasons, and a script whose answers are others; output that cannot
#                  be written, and a journal that cannot, where that of before stays
set -eu
folder=$1
mode=$2
here=$(cd "$(dirname "$0")" && pwd)
image=$folder/middle.image
checker=$here/../../target/bin/check_journal
checked=$here/../../crates/check_journal
failed=0

# set_byte FILE PLACE VALUE: one byte of a file, the value in octal.
set_byte() {
    printf "\\$3" | dd of="$1" bs=1 seek="$2" conv=notrunc 2>/dev/null
}

# damage WORD VALUE...: a copy of the image with words changed; word 0 is the store's first, each value below 256, in decimal.
damage() {
    cp "$image" "$folder/damaged.image"
    while [ $# -gt 0 ]; do
        place=$((20 + 4 * $1))
        set_byte "$folder/damaged.image" "$place" "$(printf '%03o' "$2")"
        for k in 1 2 3; do set_byte "$folder/damaged.image" $((place + k)) 000; done
        shift 2
    done
}

# The dump's exit status is 1 for a damaged image.
dump_damaged() {
    status=0
    "$folder/dump" "$folder/damaged.image" || status=$?
    [ "$status" -eq 1 ] || echo "exit status $status"
}

# the same, its line about soundness alone; the picture says the same and is whole
part() {
    damage "$@"
    dump_damaged | sed -n 2p
    status=0
    "$folder/dump" --dot "$folder/damaged.image" >"$folder/damaged.dot" || status=$?
    [ "$status" -eq 1 ] || echo "--dot: exit status $status"
    grep -q 'not sound: part' "$folder/damaged.dot" || echo "--dot: no word of the part"
    [ "$(tail -n 1 "$folder/damaged.dot")" = "}" ] || echo "--dot: not whole"
}

# Where things lie in this image: 32 entries, so record i starts at word 112 + 20 (i - 1); 1792 words, then 15 a session.
record() { echo $((112 + 20 * ($1 - 1) + $2)); }
session() { echo $((1792 + 15 * $1 + $2)); }

parts() {
    part 1 83                      # R
    part 18 1                      # entry 1: an exclusive holder that has not begun
    part 4 9                       # first: not the record of key 0
    part 3 3                       # height
    part "$(session 3 1)" 9        # code of a request in hand
    part "$(record 1 0)" 8         # a node's latch that no request has
    part "$(session 6 12)" 1       # take-backs that start at a node
    part "$(record 9 2)" 1         # a locate holder that has not begun
    part 5 1                       # free chain that starts at a node
    part "$(session 6 12)" 0       # take-backs that nothing reaches
    part "$(session 3 13)" 1       # session 6's number in the order of begins
    part "$(session 3 14)" 1       # asked, with a request in hand
}

# hold NAME: what comes in is compared with a file in expected/, or written to it.
hold() {
    if [ "$mode" = write ]; then
        mkdir -p "$here/expected"
        cat >"$here/expected/$1"
    elif diff "$here/expected/$1" - >"$folder/$1.diff"; then
        echo "ok: $1"
    else
        echo "$1 differs:"
        head -20 "$folder/$1.diff"
        failed=1
    fi
}

# Every prefix of an image, and every file that is none, is turned down with exit status 2.
turned_down() {
    for size in 0 7 19 20 21 1000 8207 8275; do
        head -c "$size" "$image" >"$folder/damaged.image"
        status=0
        "$folder/dump" "$folder/damaged.image" >/dev/null || status=$?
        [ "$status" -eq 2 ] || echo "$size bytes: exit status $status"
    done
    echo "short images are turned down"
    for digit in 1 2; do
        cp "$image" "$folder/older.image"
        set_byte "$folder/older.image" 7 "06$digit"
        told 2 "$folder/dump" "$folder/older.image"
    done
}

# The host is killed where two sessions are asked and saved, and the wages program is told nothing yet.
asked() {
    told 0 "$folder/restart" "$folder/killed" 26
    told 0 "$folder/dump" "$folder/killed/yard.image" 560 800
    told 0 "$folder/dump" --dot "$folder/killed/yard.image" | grep -e '<B>session' -e '<B>the housekeeper'
}

# told STATUS COMMAND...: what a command says, whose exit status is to be this one; names of folders are left out.
told() {
    wanted=$1
    shift
    status=0
    "$@" >"$folder/told" 2>&1 || status=$?
    [ "$status" -eq "$wanted" ] || echo "exit status $status"
    sed "s|$folder/||g" "$folder/told"
}

# All scripts of a folder are played in one go: another one is only put there.
days() {
    rm -f "$folder"/days-*.jnl
    told 0 "$folder/day" --journals "$folder/days" "$here"/days/*.txt | sed "s|$here/||"
    day_journals show_verdict
}

# day_journals COMMAND: its verdict on each journal of the scripts' stores is ok; any other is told.
day_journals() {
    count=0
    for file in "$folder"/days-*.jnl; do
        said=$("$1" "$file")
        [ "$said" = ok ] || echo "${file##*/}: $said"
        [ "$said" != ok ] || count=$((count + 1))
    done
    echo "$count of the journals are ok"
}
show_verdict() {
    "$folder/show_journal" "$1" | tail -n 1
}
check_verdict() {
    "$checker" <"$1"
}

# spoil NAME RECORD WORD VALUE: a copy of the host's journal with the lowest byte of a word changed, the value in decimal.
spoil() {
    cp "$folder/morning.jnl" "$folder/$1.jnl"
    set_byte "$folder/$1.jnl" $((32 * ($2 - 1) + 4 * $3)) "$(printf '%03o' "$4")"
    spoiled="$spoiled $1"
}

# Records 81 and 82 are the planner's last locate and the read of the first entry that it found; 147 is a pair of its list.
spoil_journal() {
    spoiled=''
    spoil answer 82 6 45           # 301 for 300
    spoil pair 147 2 13            # entry 13 for 10
    spoil count 81 6 6             # 6 pairs for 7
    spoil code 82 2 6              # a tidy
    spoil run 82 1 9               # that of a desk that has committed
    spoil list 81 7 255            # a list outside the file
    spoil next 120 0 82            # a chain that comes back
    head -c $((32 * 179 - 1)) "$folder/morning.jnl" >"$folder/short.jnl"
    spoiled="$spoiled short"
}

# Where the journal is not the stored one, this says in which byte, and what stands there.
journal() {
    grep '^The journal' "$folder/said" || echo "no word of a journal"
    told 0 "$folder/show_journal" "$folder/morning.jnl"
    if cmp "$folder/morning.jnl" "$checked/stdin" 2>&1; then
        echo "it is the stored one"
    else
        told 0 "$folder/show_journal" "$checked/stdin" >"$folder/stored.txt"
        told 0 "$folder/show_journal" "$folder/morning.jnl" | diff - "$folder/stored.txt" || true
    fi
}

# The lines that have something wrong, and the verdict.
show_spoiled() {
    for name in $spoiled; do
        echo "$name:"
        told 1 "$folder/show_journal" "$folder/$name.jnl" | grep -e '<--' -e '^no journal' -e '^[0-9]*$' ||
            echo "nothing is wrong"
    done
}

# The last line of what is shown is the verdict that is stored.
show_stored() {
    count=0
    while read -r name verdict; do
        count=$((count + 1))
        said=$(show_verdict "$checked/data/$name")
        [ "$said" = "$verdict" ] || echo "$name: $said, and not $verdict"
    done <"$checked/data/expected.txt"
    echo "$count journals are shown"
}

verdicts() {
    for name in morning $spoiled; do
        echo "$name: $(check_verdict "$folder/$name.jnl")"
    done
    day_journals check_verdict
}

# Commands whose output cannot be written: there is no room, or it is closed.
no_room() {
    "$@" >/dev/full
}
closed() {
    "$@" >&-
}

# No file may grow beyond one block, and the journal of this script is longer.
keeps_journal() {
    cp "$folder/morning.jnl" "$folder/kept-1.jnl"
    told 2 one_block "$folder/day" --journals "$folder/kept" "$here/days/16-stored-again.txt"
    if cmp "$folder/kept-1.jnl" "$folder/morning.jnl" 2>&1; then echo "the journal of before stays"; fi
    [ ! -e "$folder/kept-1.jnl.new" ] || echo "half a journal is left"
}
one_block() (
    trap '' XFSZ
    ulimit -f 1
    "$@"
)

words() {
    told 0 "$folder/host" --help
    told 0 "$folder/dump" --help
    told 0 "$folder/day" --help
    told 0 "$folder/show_journal" --help
    told 0 "$folder/restart" --help
    told 2 "$folder/host" --nothing
    told 2 "$folder/dump" --nothing "$image"
    told 2 "$folder/day" --nothing
    told 2 "$folder/show_journal" --nothing
    told 2 "$folder/restart" --nothing
    told 2 "$folder/restart" "$folder/killed" one
    told 2 "$folder/restart" "$folder/none/killed"
    told 2 "$folder/day" --journals
    told 2 "$folder/show_journal" "$folder/none.jnl"
    told 2 no_room "$folder/show_journal" "$folder/morning.jnl"
    told 2 closed "$folder/show_journal" "$folder/morning.jnl"
    told 2 no_room "$folder/show_journal" --help
    told 2 no_room "$folder/day"
    told 2 no_room "$folder/dump" "$image"
    told 2 no_room "$folder/restart" --help
    told 1 no_room "$folder/host"
    keeps_journal
    told 2 "$folder/day" "$folder/none.txt"
    told 2 "$folder/day" --journals "$folder/none/days" "$here/days/16-stored-again.txt"
    printf 'store 1 8 2 = ok\nb 1 = more\nb one = ok\nb 1\nb 2 = ok\n' >"$folder/wrong.txt"
    told 1 "$folder/day" "$folder/wrong.txt"
    told 2 "$folder/dump" "$image" 17 2/4/25:00
    told 2 "$folder/dump" "$folder/none.image"
    told 2 "$folder/dump" --dot "$folder/none.image"
    told 2 "$folder/dump" "$here"/expected | sed "s|$here/||"
    told 1 "$folder/host" "$folder/none/middle.image" | grep 'cannot' || echo "host: no reason"
    told 1 "$folder/host" "$folder/again.image" "$folder/none/morning.jnl" | grep 'cannot' || echo "host: no reason"
}

told 0 "$folder/hello" >"$folder/said"
hold hello.txt <"$folder/said"
told 0 "$folder/day" >"$folder/said"
hold day.txt <"$folder/said"
days >"$folder/said"
hold days.txt <"$folder/said"
if command -v python3 >/dev/null 2>&1; then
    told 0 python3 "$here/../desk.py" "$folder/libentry_store.so" >"$folder/said"
    hold desk.txt <"$folder/said"
else
    echo "skipped: desk.txt (python3 is missing; on Debian: apt install python3)"
fi
told 0 "$folder/host" "$image" >"$folder/timeline"
hold timeline.txt <"$folder/timeline"
told 0 "$folder/restart" "$folder/restarted" >"$folder/said"
hold restart.txt <"$folder/said"
asked >"$folder/dumped"
hold asked.txt <"$folder/dumped"
told 0 "$folder/dump" "$image" 2/4/01:30 2/4/05:00 2/3/15:00 17 >"$folder/dumped"
hold dump.txt <"$folder/dumped"
told 0 "$folder/dump" --dot "$image" >"$folder/dumped"
hold middle.dot <"$folder/dumped"
damage "$(record 83 6)" 83
dump_damaged >"$folder/dumped"
hold damaged.txt <"$folder/dumped"
parts >"$folder/dumped"
hold parts.txt <"$folder/dumped"
turned_down >"$folder/dumped"
hold short.txt <"$folder/dumped"
told 0 "$folder/host" "$folder/again.image" "$folder/morning.jnl" >"$folder/said"
journal >"$folder/shown"
hold journal.txt <"$folder/shown"
spoil_journal
show_spoiled >"$folder/shown"
hold spoiled.txt <"$folder/shown"
show_stored >"$folder/shown"
hold shown.txt <"$folder/shown"
if [ -x "$checker" ]; then
    verdicts >"$folder/said"
    hold verdicts.txt <"$folder/said"
else
    echo "skipped: verdicts.txt (check_journal is missing; make journals in the project's root proves and builds it)"
fi
words >"$folder/dumped"
hold words.txt <"$folder/dumped"
exit $failed
