#!/usr/bin/env bash
# mirror.sh MIRROR VFS: runs the program `mirror` on the cases below, each by its words and its frames, and compares
# the exit status, the note and the output; and then on what `vfs` writes. What fails is shown; the last line counts.
set -u
cd "$(dirname "$0")/.." || exit 1
program=$1 vfs=$2
work=$(mktemp -d) || exit 1
trap 'rm -rf "$work"' EXIT
passed=0 failed=0
usage='usage: mirror ENDPOINT'

# Frames are written as ENDPOINT:BYTES, a message with these bytes in hexadecimal, and ENDPOINT+BYTES, one with a handle as
# well; ENDPOINT:close, :turn, :pick and :refused are frames of these kinds; `bad` has a kind that is none, and `front`
# begins a message. In an output each word is a line, and `_` an empty one.
# What is run                       | words      | frames                              | output       | exit | note
cases="
no frame                            | 3          |                                     | live         | 0 |
names that are there                | 3          | 3:03012e030166 3:0400               | 66 live      | 0 |
a name that comes                   | 3          | 3:03012e030166 3:0400 3:010162      | 62 66 live   | 0 |
a name that goes                    | 3          | 3:03012e030166 3:0400 3:020166      | live         | 0 |
a name that comes again             | 3          | 3:010166 3:020166 3:010166          | 66 live      | 0 |
a name that comes twice             | 3          | 3:010166 3:010166                   | 66 live      | 0 |
a name that goes and never came     | 3          | 3:020166                            | live         | 0 |
a name cut behind three messages     | 3          | 3:0101ff 3:010161 3:01026100 3:0101 |              | 6 | bad events at 46
names of one beginning              | 3          | 3:0101ff 3:01026100 3:010161 3:010100 | 00 61 6100 ff live | 0 |
a name of all digits of hexadecimal | 3          | 3:01080123456789abcdef              | 0123456789abcdef live | 0 |
the name dot                        | 3          | 3:03012e 3:01012e                   | live         | 0 |
two dots                            | 3          | 3:01022e2e                          | 2e2e live    | 0 |
an empty name that comes            | 3          | 3:0100                              | _ live       | 0 |
an empty name that is there         | 3          | 3:0300                              | _ live       | 0 |
a directory that is gone            | 3          | 3:010166 3:00012e                   | 66 ended     | 0 |
a deletion without a name           | 3          | 3:0000                              | ended        | 0 |
events behind a deletion            | 3          | 3:00012e 3:010161                   | 61 ended     | 0 |
that these were all, with a name    | 3          | 3:040161                            | live         | 0 |
several events in a message         | 3          | 3:010161010162020161030163          | 62 63 live   | 0 |
a name that comes and goes at once  | 3          | 3:010161020161                      | live         | 0 |
a name that goes and comes at once  | 3          | 3:010161 3:020161010161             | 61 live      | 0 |
a deletion among others             | 3          | 3:01016100012e010162                | 61 62 ended  | 0 |
a message without events            | 3          | 3: 3:010161                         | 61 live      | 0 |
a message with a handle             | 3          | 3+010161                            | 61 live      | 0 |
a Close frame                       | 3          | 3:010161 3:close                    | 61 ended     | 0 |
events behind a Close frame         | 3          | 3:close 3:010161                    | 61 ended     | 0 |
a Close frame of another endpoint   | 3          | 3:010161 4:close                    | 61 live      | 0 |
frames of other kinds               | 3          | 3:turn 3:pick 3:refused 3:010161    | 61 live      | 0 |
messages of other endpoints         | 3          | 4:010161 3:010162 2:ff 33:05        | 62 live      | 0 |
another endpoint                    | 4          | 4:010161 3:010162                   | 61 live      | 0 |
the least endpoint                  | 1          | 1:010161                            | 61 live      | 0 |
the greatest endpoint               | 1073741823 | 1073741823:010161                   | 61 live      | 0 |
a deletion cut behind its number    | 3          | 3:00                                |              | 6 | bad events at 0
an addition cut behind its number   | 3          | 3:01                                |              | 6 | bad events at 0
a removal cut behind its number     | 3          | 3:02                                |              | 6 | bad events at 0
a name that is there cut behind it  | 3          | 3:03                                |              | 6 | bad events at 0
the end of the names cut behind it  | 3          | 3:04                                |              | 6 | bad events at 0
a deletion without all of its name  | 3          | 3:0001                              |              | 6 | bad events at 0
an addition without all of its name | 3          | 3:010261                            |              | 6 | bad events at 0
a removal without all of its name   | 3          | 3:0201                              |              | 6 | bad events at 0
a name there without all of it      | 3          | 3:03ff6161                          |              | 6 | bad events at 0
the end of the names with a length  | 3          | 3:0401                              |              | 6 | bad events at 0
a byte behind good events           | 3          | 3:01016103                          |              | 6 | bad events at 0
an event that there is not          | 3          | 3:0500                              |              | 6 | bad events at 0
the greatest number of an event     | 3          | 3:ff0161                            |              | 6 | bad events at 0
one that there is not behind a name | 3          | 3:010161050161                      |              | 6 | bad events at 0
bad events behind a message         | 3          | 3:0400 3:05                         |              | 6 | bad events at 14
bad events behind other endpoints   | 3          | 4:05 3:close 3:05                   |              | 6 | bad events at 25
bad events twice                    | 3          | 3:010161 3:05 3:06                  |              | 6 | bad events at 15
bad events before a bad frame       | 3          | 3:05 bad                            |              | 6 | bad events at 0
a bad frame before bad events       | 3          | 3:010161 bad 3:05                   |              | 6 | bad frame at 15: kind
bad events behind a Close frame     | 3          | 3:close 3:0501                      |              | 6 | bad events at 12
an epitaph                          | 3          | 3:0000000002000001ffffffffffffffffe7ffffff00000000 | | 6 | bad events at 0
a reply                             | 3          | 3:020000000200000179d851a5b930d3720000000000000000 | | 6 | bad events at 0
a bad frame                         | 3          | bad                                 |              | 6 | bad frame at 0: kind
an input that ends in a frame       | 3          | 3:010161 front                      |              | 7 | input ends inside the frame at 15
no word                             |            | 3:010161                            |              | 1 | $usage
two words                           | 3 3        | 3:010161                            |              | 1 | $usage
no endpoint                         | 0          | 3:010161                            |              | 1 | $usage
a number beyond the endpoints       | 1073741824 | 3:010161                            |              | 1 | $usage
a number beyond all numbers         | 4294967299 | 3:010161                            |              | 1 | $usage
a leading zero                      | 03         | 3:010161                            |              | 1 | $usage
a sign                              | +3         | 3:010161                            |              | 1 | $usage
no number                           | three      | 3:010161                            |              | 1 | $usage
help                                | --help     | 3:010161                            |              | 1 | $usage
"

# The bytes of a number of 32 bits, in hexadecimal, the low one first.
word() { # NUMBER
    local number
    number=$(printf '%08x' "$1")
    printf '%s' "${number:6:2}${number:4:2}${number:2:2}${number:0:2}"
}

# The bytes of frames, in hexadecimal.
spell() { # FRAME..
    local frame endpoint body
    for frame in "$@"; do
        endpoint=${frame%%[:+]*} body=${frame#*[:+]}
        case $frame in
            bad) printf '030000000600000000000000' ;;
            front) printf '0300000001' ;;
            *:close) printf '%s%s' "$(word "$endpoint")" 0200000000000000 ;;
            *:turn) printf '%s%s' "$(word "$endpoint")" 030000000400000001000000 ;;
            *:pick) printf '%s%s' "$(word "$endpoint")" 0400000000000000 ;;
            *:refused) printf '%s%s' "$(word "$endpoint")" 0500000004000000f5ffffff ;;
            *+*) printf '%s%s%s%s%s' "$(word "$endpoint")" 01010000 "$(word $((${#body} / 2)))" 09000000 "$body" ;;
            *) printf '%s%s%s%s' "$(word "$endpoint")" 01000000 "$(word $((${#body} / 2)))" "$body" ;;
        esac
    done
}

# A program that never ends fails its case.
run() { # WORD..
    timeout 60 "$program" "$@"
}

# Compares the output and the note in the work folder, and the status, with what they should be.
judge() { # WHAT STATUS WANTED-STATUS WANTED-NOTE WANTED-OUTPUT
    local line
    : > "$work/wanted"
    for line in $5; do
        printf '%s\n' "${line#_}" >> "$work/wanted"
    done
    if [ "$2" -eq "$3" ] && [ "$(cat "$work/note")" = "$4" ] && cmp -s "$work/wanted" "$work/out"; then
        passed=$((passed + 1))
        return
    fi
    failed=$((failed + 1))
    echo "FAILED: $1"
    echo "  wanted: status $3, note \"$4\", output $(tr '\n' ' ' < "$work/wanted")"
    echo "  got:    status $2, note \"$(cat "$work/note")\", output $(tr '\n' ' ' < "$work/out")"
}

while IFS='|' read -r what words frames output status note; do
    [ -n "$what" ] || continue
    read -r what <<< "$what"
    read -ra words <<< "$words"
    read -ra frames <<< "$frames"
    read -r status <<< "$status"
    read -r note <<< "$note"
    spell "${frames[@]}" | tools/to-bytes.sh > "$work/in"
    run "${words[@]}" < "$work/in" > "$work/out" 2> "$work/note"
    judge "$what" $? "$status" "$note" "$output"
done <<< "$cases"

# Each beginning of a stream: names where it ends between frames, and nothing where it ends inside one.
spell 3:03012e030166 4:05 3:010162 | tools/to-bytes.sh > "$work/stream"
borders=(0 18 31 46) outputs=(live '66 live' '66 live' '62 66 live')
for ((at = 0, begun = 0; at <= 46; at++)); do
    head -c "$at" "$work/stream" | run 3 > "$work/out" 2> "$work/note"
    status=$?
    if [ "$at" -eq "${borders[begun + 1]:-47}" ]; then begun=$((begun + 1)); fi
    if [ "$at" -eq "${borders[begun]}" ]; then
        judge "the first $at bytes" "$status" 0 '' "${outputs[begun]}"
    else
        judge "the first $at bytes" "$status" 7 "input ends inside the frame at ${borders[begun]}" ''
    fi
done

# The same stream byte by byte.
dd bs=1 status=none < "$work/stream" | run 3 > "$work/out" 2> "$work/note"
judge 'single bytes' $? 0 '' '62 66 live'

# Words that aren't UTF-8 end without a note, an output that takes nothing and an input that can't be read with one.
run $'\xff' < "$work/stream" > "$work/out" 2> "$work/note"
judge 'a word that is no text' $? 12 '' ''
: > "$work/out"
run 3 < "$work/stream" > /dev/full 2> "$work/note"
judge 'a full output' $? 4 'write failed' ''
run 3 < . > "$work/out" 2> "$work/note"
judge 'an input that fails' $? 3 'read failed' ''
: > "$work/note"
run 0 < /dev/null > "$work/out" 2> /dev/full
judge 'a note that nobody takes' $? 1 '' ''

# What a session writes for its first frames, over a pipe: the names that a watcher was told of.
watched() { # WHAT HOW-MANY ENDPOINT OUTPUT
    awk -v RS= -v many="$2" '/(^|\n)[0-9a-f]/ && ++count <= many { print $0 "\n" }' examples/watching.hex | tools/to-bytes.sh > "$work/frames"
    timeout 60 "$vfs" serve examples/trees/small.toml auto < "$work/frames" | run "$3" > "$work/out" 2> "$work/note"
    judge "$1" $? 0 '' "$4"
}
watched 'an endpoint that nobody watches' 1 3 live
watched 'a watcher of all events' 2 3 '66 live'
watched 'the same behind a name that came' 4 3 '66 67 live'
watched 'the same behind a Rename' 6 3 '67 live'
watched 'the same behind an Unlink' 9 3 live
watched 'the same behind the end of the directory' 10 3 ended
watched 'a watcher of removals' 9 4 live
watched 'an endpoint that was refused' 9 6 ended

echo "$passed passed, $failed failed"
[ "$failed" -eq 0 ]
