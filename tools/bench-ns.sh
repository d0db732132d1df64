#!/usr/bin/env bash
# bench-ns.sh NS: lines a second of the program, in processor time, over tables and scripts of about a mebibyte: a table with few
# entries and with many, paths of few and of many steps.
set -eu
export LC_ALL=C
ns=$(realpath "$1")
work=$(mktemp -d)
trap 'rm -rf "$work"' EXIT
TIMEFORMAT='%U %S'

spent() { # TABLE SCRIPT
    { time for run in {1..20}; do "$ns" "$1" "$2" > "$work/out"; done; } 2> "$work/spent"
    awk '{ print ($1 + $2) / 20 }' "$work/spent"
}

measure() { # NAME
    awk -v name="$1" -v lines="$(cat "$work/table" "$work/script" | wc -l)" -v seconds="$(spent "$work/table" "$work/script")" \
        'BEGIN { printf "  %-58s %8d lines %12.0f lines a second\n", name, lines, lines / seconds }'
}

echo "ns"
echo '/ 1' > "$work/table"
awk 'BEGIN { for (i = 0; i < 30000; i++) printf "open /data/%d/a 0x2 %d\n", i, i }' > "$work/script"
measure "one entry, paths of three steps"
awk 'BEGIN { for (i = 1; i <= 60000; i++) print "/svc/" i, i }' > "$work/table"
awk 'BEGIN { for (i = 40000; i > 0; i--) print "open /svc/" i "/a 0x2 9" }' > "$work/script"
measure "60,000 entries, paths of three steps"
awk 'BEGIN { for (i = 1; i < 1000; i++) { p = p "/a"; print p, i } }' > "$work/table"
awk 'BEGIN { for (i = 0; i < 2000; i++) p = p "/a"; for (i = 0; i < 240; i++) print "open " p " 0x2 9" }' > "$work/script"
measure "999 prefixes of one another, paths of 2,000 steps"
