#!/usr/bin/env bash
# bench-mirror.sh MIRROR: processor time (user and system) and peak memory of `mirror`, measured from outside: over 200 MB of other
# endpoints' messages, and over a million changes of a directory that has five hundred names.
set -eu
export LC_ALL=C
mirror=$(realpath "$1")
work=$(mktemp -d)
trap 'rm -rf "$work"' EXIT
cd "$(dirname "$0")/.."
source tools/frames.sh

# What a run over these bytes takes.
measure() { # NAME
    /usr/bin/time -f '%U %S %M' -o "$work/spent" "$mirror" 3 < "$work/frames" > "$work/out"
    awk -v name="$1" -v bytes="$(wc -c < "$work/frames")" -v lines="$(wc -l < "$work/out")" '{
        printf "  %-30s %10d bytes %8.1f ms, peak memory %d KiB, %d lines out\n", name, bytes, ($1 + $2) * 1e3, $3, lines
    }' "$work/spent"
}

# 3,200 messages of 65,536 bytes on endpoint 2.
awk "$writing"'BEGIN { message(2, 0, 65536); zeros(65536) }' > "$work/block"
for ((i = 0; i < 3200; i++)); do cat "$work/block"; done > "$work/frames"
measure '200 MB beside it'

# Half a million times a name of four bytes comes on endpoint 3, and another goes that came five hundred names before.
awk "$writing"'
function change(event, n) {
    message(3, 0, 6)
    printf "%c%c%04d", event, 4, n % 10000
}
BEGIN {
    for (n = 0; n < 500000; n++) {
        change(1, n)
        change(2, n + 9500)
    }
}' > "$work/frames"
measure 'a million changes'
