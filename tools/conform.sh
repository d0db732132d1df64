#!/usr/bin/env bash
# conform.sh PROGRAM [ARG..]: holds a server against the sessions of the examples (docs/CONFORMANCE.md). For each, PROGRAM ARG.. TREE MODE
# is run, the frames of the session's script on its standard input; and what it writes, as lines, is compared with the transcript but
# for its last line, which counts the client's calls. The first case that differs is shown; the last line counts.
#
# ONLY names the groups that are played, each a file of examples/cases without its ending, or `tour`; FRAMES and VFS are the programs
# that make the frames and print them.
set -u
cd "$(dirname "$0")/.." || exit 1
[ $# -gt 0 ] || { echo "usage: tools/conform.sh PROGRAM [ARG..]" >&2; exit 1; }
frames=${FRAMES:-build/frames} vfs=${VFS:-build/vfs}
work=$(mktemp -d) || exit 1
trap 'rm -rf "$work"' EXIT
. tools/cases.sh
holding=0 differing=0

# How the program ended, where it isn't as it should, and the first line that differs.
told() { # STATUS
    if [ "$1" -eq 124 ]; then
        echo "  it goes on 60 seconds after it was begun"
    elif [ "$1" -ne 0 ]; then
        echo "  it ended with the status $1, and told: $(head -c 200 "$work/note" | tr '\n' ' ')"
    fi
    [ ! -s "$work/unread" ] || echo "  it writes something that is no frame: $(cat "$work/unread")"
    awk -f tools/differs.awk "$work/wanted" "$work/got"
}

play() { # NAME TREE SCRIPT TRANSCRIPT SERVER..
    local name=$1 tree=$2 script=$3 transcript=$4 mode status
    shift 4
    mode=$(awk '!/^(#|$)/ { print; exit }' "$script")
    sed '$d' "$transcript" > "$work/wanted"
    "$frames" "$script" > "$work/sent" || exit 1
    timeout 60 "$@" "$tree" "$mode" < "$work/sent" > "$work/came" 2> "$work/note"
    status=$?
    "$vfs" show < "$work/came" > "$work/got" 2> "$work/unread"
    if [ "$status" -eq 0 ] && [ ! -s "$work/unread" ] && cmp -s "$work/wanted" "$work/got"; then
        holding=$((holding + 1))
        return
    fi
    differing=$((differing + 1))
    [ "$differing" -eq 1 ] || return
    echo "DIFFERS: $name, over $tree, in mode $mode"
    told "$status"
}

# A group of cases, each over all its trees. Those whose end isn't a transcript's are about scripts, and no server's.
play_cases() { # FILE SERVER..
    local file=$1 group number over name tree trees
    shift
    group=$(basename "$file" .sessions)
    while IFS='|' read -r number over name; do
        number=${number% }
        tail -n 1 "$work/$number.wanted" | grep -qx 'calls [0-9]* answered [0-9]*' || continue
        read -ra trees <<< "$over"
        for tree in "${trees[@]}"; do
            play "$group:$name" "$(tree_of "$tree")" "$work/$number.given" "$work/$number.wanted" "$@"
        done
    done < <(cases_of "$file")
}

play_tour() { # SERVER..
    local script
    for script in "${!tour[@]}"; do
        play "tour: $script" "$(tree_of "${tour[$script]}")" "examples/scripts/$script".{script,transcript} "$@"
    done
}

groups=$(basename -s .sessions examples/cases/*.sessions)
for group in ${ONLY:-$groups tour}; do
    before=$holding
    if [ "$group" = tour ]; then
        play_tour "$@"
    else
        play_cases "examples/cases/$group.sessions" "$@"
    fi
    echo "$group: $((holding - before)) hold"
done
echo "$holding hold, $differing differ"
[ "$differing" -eq 0 ] && [ "$holding" -gt 0 ]
