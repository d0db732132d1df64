#!/usr/bin/env bash
# frames.sh FRAMES [VFS]: runs the program on the scripts below, and compares the exit status, the note and the frames. With VFS what it
# writes is served as well, and what comes back printed: for each script of the tour that must be its transcript but for the last line.
# What fails is shown; the last line counts.
set -u
export LC_ALL=C
cd "$(dirname "$0")/.." || exit 1
program=$1 vfs=${2-}
work=$(mktemp -d) || exit 1
trap 'rm -rf "$work"' EXIT
. tools/cases.sh
passed=0 failed=0
usage='usage: frames SCRIPT'

# So many times a text.
repeated() { # TEXT COUNT
    local text
    printf -v text "%$2s" ''
    printf '%s' "${text// /$1}"
}
handles64=$(repeated 5, 63)5
carried64=$(repeated 05000000 64)

# What is run                  | the script's lines, one behind another with \n | its frames | exit | note
cases="
a mode and nothing more        | auto\n                             | | 0 |
the other mode                 | given\n                            | | 0 |
a mode without its end         | auto                               | | 0 |
a Close frame                  | auto\nhangup 7\n                   | 07000000 02 00 0000 00000000 | 0 |
no last line end               | auto\nhangup 7                     | 07000000 02 00 0000 00000000 | 0 |
the same in the other mode     | given\nhangup 7\n                  | 07000000 02 00 0000 00000000 | 0 |
lines that are skipped         | #a\n\ngiven\n#auto\n\nhangup 7\n\n | 07000000 02 00 0000 00000000 | 0 |
a Turn and a Pick              | given\nturn 1 2\npick 3\n          | 01000000 03 00 0000 04000000 02000000  03000000 04 00 0000 00000000 | 0 |
a Pick and a Turn              | given\npick 3\nturn 1 2\n          | 03000000 04 00 0000 00000000  01000000 03 00 0000 04000000 02000000 | 0 |
turns in mode auto             | auto\nturn 1 2\n                   | 01000000 03 00 0000 04000000 02000000 | 0 |
bytes and handles as they are  | auto\nraw 1 5,6 00ff\n             | 01000000 01 02 0000 02000000  05000000 06000000  00ff | 0 |
a message without bytes        | auto\nraw 1 - -\n                  | 01000000 01 00 0000 00000000 | 0 |
a Read, by its line's number   | auto\n\nread 2 5\n                 | 02000000 01 00 0000 18000000  03000000 02000001 4c01b891c67ff240  0500000000000000 | 0 |
64 handles                     | auto\nraw 1 $handles64 -\n         | 01000000 01 40 0000 00000000 $carried64 | 0 |
65 handles                     | auto\nraw 1 5,$handles64 -\n       | | 2 | script refused: line 2
no byte                        |                                    | | 2 | script refused: line 0
no mode                        | hangup 7\n                         | | 2 | script refused: line 0
a mode behind a space          |  auto\nhangup 7\n                  | | 2 | script refused: line 0
a bad line                     | auto\njump 1\n                     | | 2 | script refused: line 2
a bad line behind a good one   | auto\nhangup 7\njump 1\nhangup 7\n | | 2 | script refused: line 3
the first of two bad lines     | auto\nhangup\njump 1\n             | | 2 | script refused: line 2
a mode that is said twice      | auto\nauto\n                       | | 2 | script refused: line 2
a comment that is no text      | auto\n#\\xff\n                     | | 2 | script refused: line 2
no text in front of the mode   | #\\xff\nauto\n                     | | 2 | script refused: line 1
no text and no mode            | #\\xff\n                           | | 2 | script refused: line 0
"

# Compares the output and the note in the work folder, and the status, with what they should be.
judge() { # WHAT STATUS WANTED-STATUS WANTED-NOTE
    if [ "$2" -eq "$3" ] && [ "$(cat "$work/note")" = "$4" ] && cmp -s "$work/wanted" "$work/out"; then
        passed=$((passed + 1))
        return
    fi
    failed=$((failed + 1))
    echo "FAILED: $1"
    echo "  wanted: status $3, note \"$4\", output $(head -c 150 "$work/wanted" | od -An -v -tx1 | tr -d ' \n')"
    echo "  got:    status $2, note \"$(cat "$work/note")\", output $(head -c 150 "$work/out" | od -An -v -tx1 | tr -d ' \n')"
}

# A program that never ends fails its case.
run() { # WORD..
    timeout 60 "$program" "$@" > "$work/out" 2> "$work/note"
}

while IFS='|' read -r what script output status note; do
    [ -n "$what" ] || continue
    read -r what <<< "$what"
    read -r status <<< "$status"
    read -r note <<< "$note"
    script=${script# } script=${script%"${script##*[! ]}"}
    printf "${script//%/%%}" > "$work/script"
    tools/to-bytes.sh <<< "$output" > "$work/wanted"
    run "$work/script"
    judge "$what" $? "$status" "$note"
done <<< "$cases"

# A message and a script of the largest size, and one byte more. What is skipped counts as well.
{ printf '00000000 01 00 0000 00000100' | tools/to-bytes.sh; head -c 65536 /dev/zero; } > "$work/wanted"
{ printf 'auto\nraw 0 - '; repeated 00 65536; } > "$work/script"
run "$work/script"
judge 'a message of 65,536 bytes' $? 0 ''
: > "$work/wanted"
printf 00 >> "$work/script"
run "$work/script"
judge 'a message of 65,537 bytes' $? 2 'script refused: line 2'
{ printf 'auto\nhangup 7\n#'; head -c 1048576 /dev/zero | tr '\0' x; } > "$work/long"
head -c 1048577 "$work/long" > "$work/large"
run "$work/large"
judge 'a script of 1,048,577 bytes' $? 5 'file too large'
printf '07000000 02 00 0000 00000000' | tools/to-bytes.sh > "$work/wanted"
head -c 1048576 "$work/long" > "$work/most"
run "$work/most"
judge 'a script of 1,048,576 bytes' $? 0 ''

# Files, words, and outputs and notes that nobody takes.
printf 'auto\nhangup 7\n' > "$work/script"
printf 'auto\njump 7\n' > "$work/bad"
: > "$work/wanted"
run "$work/none"
judge 'no script' $? 5 'file failed'
run .
judge 'a directory' $? 5 'file failed'
run /dev/zero
judge 'a script without an end' $? 5 'file too large'
run
judge 'no word' $? 1 "$usage"
run "$work/script" "$work/script"
judge 'two words' $? 1 "$usage"
run --help
judge 'a word that is no file' $? 5 'file failed'
run $'\xff'
judge 'a word that is no text' $? 12 ''
: > "$work/out"
timeout 60 "$program" "$work/script" > /dev/full 2> "$work/note"
judge 'a full device' $? 4 'write failed'
timeout 60 "$program" "$work/script" 2> "$work/note" >&-
judge 'a closed output' $? 4 'write failed'
timeout 60 "$program" "$work/bad" > /dev/full 2> "$work/note"
judge 'a bad line before a full device' $? 2 'script refused: line 2'
: > "$work/note"
timeout 60 "$program" "$work/bad" > "$work/out" 2> /dev/full
judge 'a note that nobody takes' $? 2 ''

# Each front of a script either is a script, and has the frames of its lines, or its last line is refused.
printf 'auto\nhangup 7\nturn 0 1\nraw 1 5 00\n' > "$work/script"
printf '07000000 02 00 0000 00000000 00000000 03 00 0000 04000000 01000000 01000000 01 01 0000 01000000 05000000 00' |
    tools/to-bytes.sh > "$work/all"
sizes=(0 0 12 28 45)
for ((front = 0; front <= 34; front++)); do
    head -c "$front" "$work/script" > "$work/front"
    lines=$(grep -c . "$work/front")
    run "$work/front"
    status=$? bytes=${sizes[lines]} note=''
    if [ "$status" -ne 0 ]; then
        bytes=0 note="script refused: line $((lines > 1 ? lines : 0))"
    fi
    head -c "$bytes" "$work/all" > "$work/wanted"
    judge "the first $front bytes of a script" "$status" $((status > 0 ? 2 : 0)) "$note"
done
cp "$work/all" "$work/wanted"
judge 'all of a script' "$status" 0 ''

# What it writes, served and printed, is the transcript but for its last line.
if [ -n "$vfs" ]; then
    for script in "${!tour[@]}"; do
        text=examples/scripts/$script.script tree=$(tree_of "${tour[$script]}")
        mode=$(awk '!/^(#|$)/ { print; exit }' "$text")
        "$vfs" run "$tree" "$text" | sed '$d' > "$work/wanted"
        { "$program" "$text" | "$vfs" serve "$tree" "$mode" | "$vfs" show; } > "$work/out" 2> "$work/note"
        judge "the script on $script, served and printed" $? 0 ''
    done
fi
echo "frames: $passed passed, $failed failed"
[ "$failed" -eq 0 ]
