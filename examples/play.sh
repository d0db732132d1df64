#!/usr/bin/env bash
# play.sh PROGRAM [FILE..]: plays the cases of these files, or of all in examples/cases: of `.sessions` a script over trees, whose
# transcript is compared, and of `.trees` a tree, of which `check` says that it stands or what is wrong with it. Where the program
# writes something else, the lines that differ are shown. For each file it says how many cases hold; the last line counts.
set -u
cd "$(dirname "$0")/.." || exit 1
program=$1
shift
[ $# -gt 0 ] || set -- examples/cases/*.sessions examples/cases/*.trees
work=$(mktemp -d) || exit 1
trap 'rm -rf "$work"' EXIT
. tools/cases.sh
passed=0 failed=0

# What the program says: its output, and its note behind that. One that never ends fails its case.
said() { # WORD..
    timeout 60 "$program" "$@" < /dev/null 2> "$work/note"
    cat "$work/note"
}

compare() { # NUMBER NAME WORD..
    local number=$1 name=$2
    shift 2
    if said "$@" | diff "$work/$number.wanted" - > "$work/diff"; then
        passed=$((passed + 1))
    else
        failed=$((failed + 1))
        echo "FAILED: $name"
        head -n 4 "$work/diff" | cut -c -200
    fi
}

for file; do
    before=$passed kind=${file##*.}
    while IFS="|" read -r number over name; do
        number=${number% }
        name=$(basename "$file"):$name
        if [ "$kind" = trees ]; then
            compare "$number" "$name" check "$work/$number.given"
            continue
        fi
        read -ra trees <<< "$over"
        for tree in "${trees[@]-none}"; do
            compare "$number" "$name, over $tree" run "$(tree_of "$tree")" "$work/$number.given"
        done
    done < <(cases_of "$file")
    echo "$(basename "$file"): $((passed - before)) hold"
done

echo "$passed passed, $failed failed"
[ "$failed" -eq 0 ] && [ "$passed" -gt 0 ]
