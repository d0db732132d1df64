#!/usr/bin/env bash
# ns.sh NS [VFS]: runs the program on the cases below, each by the lines of its table and of its script, and compares the exit status,
# the note and the output. With VFS its output is played as well. What fails is shown; the last line counts.
set -u
export LC_ALL=C
cd "$(dirname "$0")/.." || exit 1
program=$1 player=${2-}
work=$(mktemp -d) || exit 1
trap 'rm -rf "$work"' EXIT
passed=0 failed=0

# So many times a text.
repeated() { # TEXT COUNT
    local text
    printf -v text "%$2s" ''
    printf '%s' "${text// /$1}"
}
name255=$(repeated n 255) name256=$(repeated n 256)
deep=$(repeated "/$name255" 15)    # 3,840 bytes
path4095=$deep/$(repeated n 254) path4096=$deep/$(repeated n 255)

# What is run | the table's lines, one behind another with \n | the script's lines | the output's | exit | note
cases="
the longest prefix              | / 1\n/data 2\n | open /data/../data/x/./y 0x2 9\nopen /datax 0x2 9\nopen /data 0x2 9\nsync 1\n | open 2 x/y 0x2 9\nopen 1 datax 0x2 9\nopen 2 . 0x2 9\nsync 1\n | 0 |
prefixes of prefixes            | /a/b/c 3\n/a 1\n/a/b 2\n | open /a/b/c/d 0 9\nopen /a/b/d 0 9\nopen /a/d/c 0 9\n | open 3 d 0 9\nopen 2 d 0 9\nopen 1 d/c 0 9\n | 0 |
a prefix that is no step        | /data 2\n/ 1\n | open /datax/y 0 9\nopen /dat 0 9\n | open 1 datax/y 0 9\nopen 1 dat 0 9\n | 0 |
dots over the root              | / 1\n | open /../../a/../../b 0 9\n | open 1 b 0 9\n | 0 |
the root in two forms           | // 7\n | open / 0 9\nopen // 0 9\nopen /. 0 9\n | open 7 . 0 9\nopen 7 . 0 9\nopen 7 . 0 9\n | 0 |
dots that take back             | /a 1\n | open /a/b/c/../../d/../e 0 9\n | open 1 e 0 9\n | 0 |
three dots are a step           | / 1\n | open /.../.a 0 9\n | open 1 .../.a 0 9\n | 0 |
comments and empty lines        | # a\n\n/ 1\n#/ 2\n | #open /a 0 9\n\nauto\nopen /a 0 9\n | #open /a 0 9\n\nauto\nopen 1 a 0 9\n | 0 |
no last line end                | / 1 | auto\nopen /a 0 9 | auto\nopen 1 a 0 9 | 0 |
open of three words             | / 1\n | open /a 0\n | open /a 0\n | 0 |
open of five words              | / 1\n | open /a 0 9 9\n | open /a 0 9 9\n | 0 |
open of an endpoint             | / 1\n | open 4 a 0 9\n | open 4 a 0 9\n | 0 |
open of two spaces              | / 1\n | open  /a 0 9\n | open  /a 0 9\n | 0 |
a longer word                   | / 1\n | opens /a 0 9\n | opens /a 0 9\n | 0 |
words that are empty            | / 1\n | open /a  9\n | open 1 a  9\n | 0 |
bytes that are no text          | / 1\n | echo \\xff\nopen /a \\xff 9\n | echo \\xff\nopen 1 a \\xff 9\n | 0 |
the largest endpoint            | / 1073741823\n | open /a 0 9\n | open 1073741823 a 0 9\n | 0 |
an endpoint too large           | / 1073741824\n | auto\n | | 2 | table refused: line 1
an endpoint that is 0           | / 0\n | auto\n | | 2 | table refused: line 1
a zero in front                 | / 1\n/a 02\n | auto\n | | 2 | table refused: line 2
no endpoint                     | /\n | auto\n | | 2 | table refused: line 1
a word too many                 | / 1 \n | auto\n | | 2 | table refused: line 1
a prefix without its slash      | a 1\n | auto\n | | 2 | table refused: line 1
an empty prefix                 |  1\n | auto\n | | 2 | table refused: line 1
the same prefix                 | /a 1\n/b 2\n/a 3\n | auto\n | | 2 | table refused: line 3
the same in another form        | /a 1\n\n//b/./../a/ 2\n | auto\n | | 2 | table refused: line 3
a prefix that is no text        | /\\xff 1\n | auto\n | | 2 | table refused: line 1
a prefix of 4,095 bytes         | $path4095 1\n | open $path4095 0 9\n | open 1 . 0 9\n | 0 |
a prefix of 4,096 bytes         | $path4096 1\n | auto\n | | 2 | table refused: line 1
a path of 4,096 bytes           | / 1\n | auto\nopen $path4096 0 9\n | | 2 | line refused: line 2
a part of 255 bytes             | / 1\n | open /$name255 0 9\n | open 1 $name255 0 9\n | 0 |
a part of 256 bytes             | / 1\n | open /$name256 0 9\n | | 2 | line refused: line 1
a part that is taken back       | / 1\n | open /$name256/../a 0 9\n | | 2 | line refused: line 1
a zero byte                     | / 1\n | open /a\\0b 0 9\n | | 2 | line refused: line 1
a zero byte that is taken back  | / 1\n | open /a\\0b/.. 0 9\n | | 2 | line refused: line 1
a path that is no text          | / 1\n | sync 1\nopen /\\xc3 0 9\n | | 2 | line refused: line 2
no prefix                       | /a 1\n | open /a 0 9\nopen /b 0 9\n | | 2 | line refused: line 2
nothing in the table            | | open / 0 9\n | | 2 | line refused: line 1
a refused line behind a good one | / 1\n | open /a 0 9\nopen /\\xff 0 9\nopen /b 0 9\n | | 2 | line refused: line 2
the table before the script     | bad\n | open /\\xff 0 9\n | | 2 | table refused: line 1
nothing in the script           | / 1\n | | | 0 |
"

judge() { # WHAT STATUS WANTED-STATUS WANTED-NOTE
    if [ "$2" -eq "$3" ] && [ "$(cat "$work/note")" = "$4" ] && cmp -s "$work/wanted" "$work/out"; then
        passed=$((passed + 1))
        return
    fi
    failed=$((failed + 1))
    echo "FAILED: $1"
    echo "  wanted: status $3, note \"$4\", output $(head -c 300 "$work/wanted" | od -An -v -c | tr -d '\n')"
    echo "  got:    status $2, note \"$(cat "$work/note")\", output $(head -c 300 "$work/out" | od -An -v -c | tr -d '\n')"
}

while IFS='|' read -r what table script output status note; do
    [ -n "$what" ] || continue
    read -r what <<< "$what"
    read -r note <<< "$note"
    for part in table script output; do
        text=${!part}
        text=${text# } text=${text% }
        printf "${text//%/%%}" > "$work/$part"
    done
    mv "$work/output" "$work/wanted"
    timeout 60 "$program" "$work/table" "$work/script" > "$work/out" 2> "$work/note"
    judge "$what" $? "$status" "$note"
done <<< "$cases"

# Files and words.
printf '/ 1\n' > "$work/table"
printf 'auto\n' > "$work/script"
head -c 1048577 /dev/zero > "$work/large"
: > "$work/wanted"
files() { # WHAT STATUS NOTE WORD..
    local what=$1 status=$2 note=$3
    shift 3
    timeout 60 "$program" "$@" > "$work/out" 2> "$work/note"
    judge "$what" $? "$status" "$note"
}
files "no table" 5 "file failed" "$work/none" "$work/script"
files "no script" 5 "file failed" "$work/table" "$work/none"
files "a directory" 5 "file failed" "$work/table" .
files "too large a table" 5 "file too large" "$work/large" "$work/none"
files "too large a script" 5 "file too large" "$work/table" "$work/large"
files "no word" 1 "usage: ns TABLE SCRIPT"
files "one word" 1 "usage: ns TABLE SCRIPT" "$work/table"
files "three words" 1 "usage: ns TABLE SCRIPT" "$work/table" "$work/script" "$work/script"
timeout 60 "$program" "$work/table" "$work/script" > /dev/full 2> "$work/note"
status=$?
: > "$work/out"
judge "a full device" $status 4 "write failed"

# Ten thousand entries, and a path below each of them.
awk 'BEGIN { for (i = 1; i <= 10000; i++) print "/svc/" i, i }' > "$work/table"
awk 'BEGIN { for (i = 10000; i > 0; i--) print "open /svc/x/../" i "/a 0 9" }' > "$work/script"
awk 'BEGIN { for (i = 10000; i > 0; i--) print "open " i " a 0 9" }' > "$work/wanted"
timeout 60 "$program" "$work/table" "$work/script" > "$work/out" 2> "$work/note"
judge "ten thousand entries" $? 0 ""

# What it writes is a script: over a tree it is played like the one that names the endpoint.
if [ -n "$player" ]; then
    printf '/ 1\n' > "$work/table"
    printf 'auto\nopen /d/../d/./f 0x2 9\nread 9 5\n' > "$work/script"
    printf 'auto\nopen 1 d/f 0x2 9\nread 9 5\n' > "$work/named"
    "$program" "$work/table" "$work/script" > "$work/played"
    "$player" run examples/trees/small.toml "$work/named" > "$work/wanted"
    "$player" run examples/trees/small.toml "$work/played" > "$work/out" 2> "$work/note"
    judge "its output is played" $? 0 ""
fi
echo "ns: $passed passed, $failed failed"
[ "$failed" -eq 0 ]
