#!/usr/bin/env bash
# exchange.sh PROGRAM FRAMES WORD..: runs the program with these words on the frames of a file, and
# prints each frame with what came back for it. In mode given what came back stands behind all frames.
set -eu
cd "$(dirname "$0")/.."
program=$1 frames=$2
shift 2
mode=${*: -1}
work=$(mktemp -d)
trap 'rm -rf "$work"' EXIT

explain() { # FILE FIRST-BYTE NAME NUMBER
    tail -c +"$(($2 + 1))" "$1" | od -An -v -tx1 | awk -v name="$3" -v from="$4" -v watchers="$work/watchers" -f tools/explain.awk
}

# Runs the program on the frames so far, and prints what is new in its output.
answers() { # WORD..
    "$program" "$@" < "$work/in" > "$work/out" 2> "$work/notes" || status=$?
    explain "$work/out" "$got" "  answer" 1
    got=$(wc -c < "$work/out")
}

# An empty line stands between two frames; what has no digits is no frame.
awk -v RS= -v work="$work" '/(^|\n)[0-9a-f]/ { print > (work "/frame." ++n) }' "$frames"

# The program is run on the first frame, on the first two, and so on: what is new in the output of
# a run is what came back for its last frame. Its end serves what still waits, so that in mode given
# it is run once, on all frames.
echo "vfs $*"
: > "$work/in"
sent=0 got=0 status=0
for ((i = 1; ; i++)); do
    frame="$work/frame.$i"
    [ -e "$frame" ] || break
    echo
    grep '^#' "$frame" || true
    tools/to-bytes.sh "$frame" >> "$work/in"
    explain "$work/in" "$sent" request "$i"
    sent=$(wc -c < "$work/in")
    [ "$mode" = given ] || answers "$@"
done
if [ "$mode" = given ]; then
    echo
    echo "# what came back for all of them"
    answers "$@"
fi
echo
echo "$sent bytes in, $got bytes out, exit status $status"
cat "$work/notes"
