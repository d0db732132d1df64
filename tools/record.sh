#!/usr/bin/env bash
# record.sh VFS AUDIT TREE ORDER FRAMES: a recording of a session over this tree in mode given, with the messages and Close frames of a
# file of frames in hexadecimal, as those of examples are. ORDER says how what waits is served: `soon` at once, `rising` and `falling` by
# the numbers of the endpoints, as late as can be. Which Picks find nothing to serve is asked of AUDIT, and these are left out; anything
# else that it says against the recording is an error. The recording goes to standard output.
set -eu
vfs=$1 audit=$2 tree=$3 order=$4 frames=$5
tools=$(dirname "$0")
work=$(mktemp -d)
trap 'rm -rf "$work"' EXIT
servers=$(grep -c '^\[\[server\]\]' "$tree")
mounts=$(grep -c '^\[\[mount\]\]' "$tree" || true)

# The frames, one a line, and of each its kind, its endpoint and its handles.
sed 's/#.*//' "$frames" | awk -v RS= '{ gsub(/[ \t\n]/, ""); if ($0 != "") print }' > "$work/frames"

# The endpoints that may have something to serve: those of the frames and of the handles that they carry, and the ends of mounts.
endpoints() {
    awk -v mounts="$mounts" '
        function number(text,    i, sum) { for (i = 7; i > 0; i -= 2) sum = 256 * sum + value[substr(text, i, 2)]; return sum }
        BEGIN {
            for (i = 0; i < 256; i++) value[sprintf("%02x", i)] = i
            for (i = 0; i < mounts; i++) print 1073741824 + i
        }
        { print number($1); for (i = 0; i < value[substr($1, 11, 2)]; i++) print number(substr($1, 25 + 8 * i, 8)) }' "$work/frames" |
        awk '$1 < 2147483648 && !seen[$1]++'
}

case $order in
    falling) endpoints | sort -rn ;;
    *) endpoints | sort -n ;;
esac > "$work/endpoints"

# Steps that pick each endpoint in turn, as often as there are frames, so that all is picked; a Pick that finds nothing is left out later.
all_picked() {
    local i
    for ((i = 0; i < $(wc -l < "$work/frames"); i++)); do sed 's/^/pick /' "$work/endpoints"; done
}

# What a frame on this endpoint makes wait is served at once, also where it goes on over mounts.
at_once() { # ENDPOINT
    local i
    echo "pick $1"
    for ((i = 0; i < 2 * mounts; i++)); do echo "pick $((1073741824 + i % mounts))"; done
}

# The steps. A hang-up is served by turns, and must find nothing else that waits: so all is picked before it.
steps() {
    local line endpoint
    while read -r line; do
        endpoint=$((16#${line:6:2}${line:4:2}${line:2:2}${line:0:2}))
        case $order:${line:8:2} in
            soon:01) echo "in $line"; at_once "$endpoint" ;;
            *:01) echo "in $line" ;;
            *:02) all_picked; echo "in $line"; echo "turns $endpoint" ;;
        esac
    done < "$work/frames"
    all_picked
}

# Records the session of the steps.
record() {
    awk -v half=in -v servers="$servers" -f "$tools/record.awk" "$work/steps" | "$tools/to-bytes.sh" > "$work/in"
    "$vfs" serve "$tree" given < "$work/in" > "$work/out"
    od -An -v -tx1 "$work/out" | awk -v half=out -v steps="$work/steps" -f "$tools/record.awk" > "$work/records"
    if ! "$tools/to-bytes.sh" "$work/records" > "$work/recording"; then
        echo "record.sh: $order: something waits at the end" >&2
        exit 1
    fi
}

steps > "$work/steps"
while true; do
    record
    said=$("$audit" "$tree" "$work/recording") || true
    case $said in
        "lawful "*) break ;;
        *": nothing to serve")
            # The step of this record goes.
            place=${said#record } place=${place%%:*}
            step=$(sed -n "$((place + 1))s/.*# //p" "$work/records")
            sed "${step}d" "$work/steps" > "$work/fewer"
            mv "$work/fewer" "$work/steps" ;;
        *) echo "record.sh: $order: $said" >&2; exit 1 ;;
    esac
done
cat "$work/recording"
