#!/usr/bin/env bash
# check.sh PROGRAM: runs the program on the cases below, each by its words and its input, and compares
# the exit status, the note and the output. What fails is shown; the last line counts.
set -u
cd "$(dirname "$0")/.." || exit 1
program=$1
work=$(mktemp -d) || exit 1
trap 'rm -rf "$work"' EXIT
. tools/cases.sh
passed=0 failed=0

# What goes in and comes out, in hexadecimal, by the name that the cases have for it.
declare -A bytes=(
    [nothing]=''
    # A Read of 5 bytes on endpoint 1, and what a file with the text `hello world` answers.
    [read]='01000000 01 00 0000 18000000  01000000 02000001 4c01b891c67ff240  0500000000000000'
    [hello]='01000000 01 00 0000 38000000  01000000 02000001 4c01b891c67ff240
        0100000000000000 18000000 0000 0000  0500000000000000 ffffffffffffffff 68656c6c6f000000'
    # The same Read on an endpoint that nobody knows: Refused, BAD_HANDLE.
    [stray]='07000000 01 00 0000 18000000  01000000 02000001 4c01b891c67ff240  0500000000000000'
    [refused]='07000000 05 00 0000 04000000  f5ffffff'
    # Over a tree: an Open of `nope` with the new endpoint 4, whose answer is an epitaph and a Close frame.
    [open]='01000000 01 01 0000 48000000 04000000  00000000 02000001 d6547cffbb4fbc2f
        0400000000000000 ffffffffffffffff 0200000000000000 0000000000000000 ffffffffffffffff ffffffff 00000000
        6e6f706500000000'
    [missing]='04000000 01 00 0000 18000000  00000000 02000001 ffffffffffffffff e7ffffff 00000000
        04000000 02 00 0000 00000000'
    # An Open of `m/m/m/g` with the new endpoint 2 and a Read of 10 bytes there, and the text `remote`.
    [through]='01000000 01 01 0000 48000000 02000000  00000000 02000001 d6547cffbb4fbc2f
        0700000000000000 ffffffffffffffff 0200000000000000 0000000000000000 ffffffffffffffff ffffffff 00000000
        6d2f6d2f6d2f6700  02000000 01 00 0000 18000000  03000000 02000001 4c01b891c67ff240 0a00000000000000'
    [remote]='02000000 01 00 0000 38000000  03000000 02000001 4c01b891c67ff240
        0100000000000000 18000000 0000 0000  0600000000000000 ffffffffffffffff 72656d6f74650000'
    # A refusal, a message of four bytes and a Close frame, and their lines.
    [refusal]='01000000 05 00 0000 04000000  f5ffffff'
    [four]='01000000 01 00 0000 04000000  61626364'
    [closed]='01000000 02 00 0000 00000000'
    [lines]='312072656675736564202d31310a31206d65737361676520726177202d2036313632363336340a3120636c6f73650a'
    # The transcript of an Open of `nope` with the new endpoint 2.
    [transcript]='32206d6573736167652065706974617068202d20303030303030303030323030303030316666666666666666666666666666
        6666653766666666666630303030303030300a3220636c6f73650a63616c
        6c73203020616e73776572656420300a'
    # Fixed parts, each bad for one reason, and the front of a Read.
    [kind]='01000000 09 00 0000 00000000'
    [zero]='01000000 01 00 0100 00000000'
    [handles]='01000000 01 41 0000 00000000'
    [many]='01000000 01 00 0000 01000100'
    [shape]='01000000 02 00 0000 01000000'
    [front]='01000000 01 00 0000 18000000  01000000 02'
)
usage='usage: vfs file NAME | serve TREE auto | serve TREE given | run TREE SCRIPT | check TREE | show | make N'

# What `make N` writes for so many rounds.
printf '%s\n' 'frames in 5' 'frames out 4' 'bytes out 133' \
    'sha256 f98b487e3464889d172adffad867c99148a6e43e8ccc4c05df16925b4f0548b3' > "$work/one"
printf '%s\n' 'frames in 302' 'frames out 152' 'bytes out 8039' \
    'sha256 8d581ba451fabdf01a18dceac78371548c83f47325eb550e162482637365e670' > "$work/hundred"
printf '%s\n' 'frames in 3002' 'frames out 1653' 'bytes out 103961' \
    'sha256 15f027756d1b1a42d7c62cbcb11d4affa4c9f8fa06dba5207be5b35fb44262a8' > "$work/thousand"
printf '%s\n' 'frames in 30002' 'frames out 15231' 'bytes out 1097225' \
    'sha256 06bbdec49ed44359739c2e1f047956f578daec2d4584ae1ece7e4fd263ddfd6d' > "$work/all"

# Files that the words name: @full and @over have as many bytes as a file may have and one more, and
# @tree and @large so many as a tree file.
head -c 65536 /dev/zero > "$work/full"
head -c 65537 /dev/zero > "$work/over"
{ cat examples/trees/small.toml; printf '#'; head -c 1048576 /dev/zero | tr '\0' x; } > "$work/long"
head -c 1048576 "$work/long" > "$work/tree"
head -c 1048577 "$work/long" > "$work/large"
printf '\n# no mode\nopen 1 nope 0x2 2\n' > "$work/modeless"
printf 'version = 2\n' > "$work/wrong"
printf 'auto\nopen 1 nope 0x2 2\n' > "$work/script"
printf 'auto\njump 1\n' > "$work/bad"

# What is run                   | words                             | input       | output       | exit | note
cases="
a Read of the file              | file examples/hello               | read        | hello        | 0 |
no frame                        | file examples/hello               | nothing     | nothing      | 0 |
an endpoint that nobody knows   | file examples/hello               | stray       | refused      | 0 |
a bad kind                      | file examples/hello               | read kind   | hello        | 6 | bad frame at 36: kind
a field that isn't zero         | file examples/hello               | zero        | nothing      | 6 | bad frame at 0: zero
too many handles                | file examples/hello               | read handles | hello       | 6 | bad frame at 36: handles
too many bytes                  | file examples/hello               | many        | nothing      | 6 | bad frame at 0: bytes
a Close with bytes              | file examples/hello               | shape       | nothing      | 6 | bad frame at 0: shape
an input that ends in a frame   | file examples/hello               | read front  | hello        | 7 | input ends inside the frame at 36
a file of the largest size      | file @full                        | nothing     | nothing      | 0 |
a file that is too large        | file @over                        | read        | nothing      | 5 | file too large
a file that isn't there         | file @none                        | read        | nothing      | 5 | file failed
a directory in place of a file  | file .                            | read        | nothing      | 5 | file failed
a file without a byte           | file /dev/null                    | nothing     | nothing      | 0 |
a file without an end           | file /dev/zero                    | read        | nothing      | 5 | file too large
frames as lines                 | show                              | refusal four closed | lines | 0 |
frames and a bad kind           | show                              | refusal four closed kind | lines | 6 | bad frame at 44: kind
an Open over a tree             | serve examples/trees/small.toml auto | open     | missing      | 0 |
an unknown endpoint over a tree | serve examples/trees/small.toml auto | stray open | refused missing | 0 |
a bad frame over a tree         | serve examples/trees/small.toml auto | open kind | missing     | 6 | bad frame at 88: kind
an input over a tree cut short  | serve examples/trees/small.toml auto | open front | missing    | 7 | input ends inside the frame at 88
a session over a refused tree   | serve @wrong auto                 | open        | nothing      | 2 | tree refused: rule 2 item 0
a session over no tree          | serve @none auto                  | open        | nothing      | 5 | file failed
a session over too large a tree | serve @large auto                 | open        | nothing      | 5 | file too large
a session over a directory      | serve . auto                      | open        | nothing      | 5 | file failed
no tree in mode given           | serve @none given                 | open        | nothing      | 5 | file failed
a directory in mode given       | serve . given                     | open        | nothing      | 5 | file failed
too large a tree in mode given  | serve @large given                | open        | nothing      | 5 | file too large
an Open over two servers        | serve examples/trees/mounted_pair.toml auto | open | missing    | 0 |
an Open through three mounts    | serve examples/trees/every_kind.toml auto | through | remote    | 0 |
mode given                      | serve examples/trees/mounted_pair.toml given | open stray | refused missing | 0 |
a bad frame in mode given       | serve examples/trees/mounted_pair.toml given | open kind | missing | 6 | bad frame at 88: kind
an end in a frame in mode given | serve examples/trees/mounted_pair.toml given | open front | missing | 7 | input ends inside the frame at 88
a mode that is none             | serve examples/trees/small.toml once | open     | nothing      | 1 | $usage
a script of one Open            | run examples/trees/small.toml @script | open      | transcript   | 0 |
a script with a bad line        | run examples/trees/small.toml @bad | nothing      | nothing      | 2 | script refused: line 2
a script over a refused tree    | run @wrong @script                | nothing     | nothing      | 2 | tree refused: rule 2 item 0
a script that isn't there       | run examples/trees/small.toml @none | nothing     | nothing      | 5 | file failed
a script that is too large      | run examples/trees/small.toml @large | nothing    | nothing      | 5 | file too large
a script that is a directory    | run examples/trees/small.toml .   | nothing     | nothing      | 5 | file failed
a script over no tree           | run @none @script                 | nothing     | nothing      | 5 | file failed
a script over a directory       | run . @script                     | nothing     | nothing      | 5 | file failed
a script over too large a tree  | run @large @script                | nothing     | nothing      | 5 | file too large
a tree that stands              | check examples/trees/mounted_pair.toml | nothing | ok servers 2 nodes 2 mounts 2 clients 1 | 0 |
a tree of the largest size      | check @tree                       | nothing     | ok servers 1 nodes 2 mounts 0 clients 1 | 0 |
a tree that breaks a rule       | check @wrong                      | nothing     | nothing      | 2 | tree refused: rule 2 item 0
a tree that isn't there         | check @none                       | nothing     | nothing      | 5 | file failed
a tree that is too large        | check @large                      | nothing     | nothing      | 5 | file too large
a tree that is a directory      | check .                           | nothing     | nothing      | 5 | file failed
a script without a mode         | run examples/trees/small.toml @modeless | nothing | nothing   | 2 | script refused: line 0
no script over a refused tree   | run @wrong @none                  | nothing     | nothing      | 2 | tree refused: rule 2 item 0
one round                       | make 1                            | nothing     | @one         | 0 |
a hundred rounds                | make 100                          | nothing     | @hundred     | 0 |
a thousand rounds               | make 1000                         | nothing     | @thousand    | 0 |
a thousand rounds once more     | make 1000                         | nothing     | @thousand    | 0 |
all rounds that there are       | make 10000                        | nothing     | @all         | 0 |
no round                        | make 0                            | nothing     | nothing      | 1 | $usage
no word                         |                                   | read        | nothing      | 1 | $usage
a word too many                 | file examples/hello more          | read        | nothing      | 1 | $usage
a script and no tree            | run examples/scripts/reading.script | nothing   | nothing      | 1 | $usage
a round too many                | make 10001                        | nothing     | nothing      | 1 | $usage
"

# Writes what a cell of the table stands for: a file, bytes by their names, or a line of text.
spell() { # CELL
    local name
    if [ -f "$1" ]; then
        cat "$1"
        return
    fi
    for name in $1; do
        if [ -z "${bytes[$name]+there}" ]; then
            printf '%s\n' "$1"
            return
        fi
    done
    for name in $1; do
        tools/to-bytes.sh <<< "${bytes[$name]}"
    done
}

# A program that never ends fails its case.
run() { # WORD..
    timeout 60 "$program" "$@"
}

# Compares the output and the note in the work folder, and the status, with what they should be.
judge() { # WHAT STATUS WANTED-STATUS WANTED-NOTE WANTED-OUTPUT
    spell "$5" > "$work/wanted"
    if [ "$2" -eq "$3" ] && [ "$(cat "$work/note")" = "$4" ] && cmp -s "$work/wanted" "$work/out"; then
        passed=$((passed + 1))
        return
    fi
    failed=$((failed + 1))
    echo "FAILED: $1"
    echo "  wanted: status $3, note \"$4\", output $(od -An -v -tx1 "$work/wanted" | tr -d ' \n')"
    echo "  got:    status $2, note \"$(cat "$work/note")\", output $(od -An -v -tx1 "$work/out" | tr -d ' \n')"
}

# Compares the text of a script of the examples with what it should be.
same_text() { # WHAT FILE COMMAND..
    local what=$1 wanted=$2
    shift 2
    if "$@" 2>&1 | diff "$wanted" - > "$work/diff"; then
        passed=$((passed + 1))
        return
    fi
    failed=$((failed + 1))
    echo "FAILED: $what differs from $wanted:"
    cat "$work/diff"
}

while IFS='|' read -r what words input output status note; do
    [ -n "$what" ] || continue
    read -r what <<< "$what"
    read -r output <<< "$output"
    output=${output//@/"$work/"}
    read -r status <<< "$status"
    read -r note <<< "$note"
    read -ra words <<< "$words"
    words=("${words[@]//@/"$work/"}")
    spell "$input" > "$work/in"
    run "${words[@]}" < "$work/in" > "$work/out" 2> "$work/note"
    judge "$what" $? "$status" "$note" "$output"
done <<< "$cases"

# The tour.
for script in "${!tour[@]}"; do
    run run "$(tree_of "${tour[$script]}")" "examples/scripts/$script.script" < /dev/null > "$work/out" 2> "$work/note"
    judge "the script on $script" $? 0 '' "examples/scripts/$script.transcript"
done

# Words that aren't UTF-8 end without a note.
run file $'\xff' < /dev/null > "$work/out" 2> "$work/note"
judge 'a word that is no text' $? 12 '' nothing

# An output that takes nothing, as a full device or a closed one.
spell 'open read' > "$work/in"
: > "$work/out"
run file examples/hello < "$work/in" > /dev/full 2> "$work/note"
judge 'a full output' $? 4 'write failed' nothing
run serve examples/trees/small.toml auto < "$work/in" > /dev/full 2> "$work/note"
judge 'a full output of a tree' $? 4 'write failed' nothing
run check examples/trees/small.toml > /dev/full 2> "$work/note"
judge 'a full output of a check' $? 4 'write failed' nothing
run run examples/trees/small.toml "$work/script" > /dev/full 2> "$work/note"
judge 'a full output of a transcript' $? 4 'write failed' nothing
run make 1 > /dev/full 2> "$work/note"
judge 'a full output of a report' $? 4 'write failed' nothing
run file examples/hello < "$work/in" 2> "$work/note" >&-
judge 'a closed output' $? 4 'write failed' nothing

# An input that can't be read, and a note that nobody takes, which leaves the status as it is.
run file examples/hello < . > "$work/out" 2> "$work/note"
judge 'an input that fails' $? 3 'read failed' nothing
: > "$work/note"
run file "$work/none" < /dev/null > "$work/out" 2> /dev/full
judge 'a note that nobody takes' $? 5 '' nothing

# The same frames byte by byte.
spell 'stray open kind' | dd bs=1 status=none | run serve examples/trees/small.toml auto > "$work/out" 2> "$work/note"
judge 'single bytes' $? 6 'bad frame at 124: kind' 'refused missing'

# A client that waits for its answer before it sends more gets it.
coproc VFS { run file examples/hello 2> "$work/note"; }
vfs=$VFS_PID
exec {to}>&"${VFS[1]}" {from}<&"${VFS[0]}"
eval "exec ${VFS[1]}>&- ${VFS[0]}<&-"
spell read >&"$to"
timeout 20 head -c 68 <&"$from" > "$work/out"
exec {to}>&-
wait "$vfs"
judge 'an answer before the next frame' $? 0 '' hello
exec {from}<&-

# What make run shows.
same_text 'the session' examples/session.expected examples/exchange.sh "$program" examples/session.hex serve examples/trees/small.toml auto
same_text 'the changes' examples/changes.expected examples/exchange.sh "$program" examples/changes.hex serve examples/trees/small.toml auto
same_text 'the names' examples/names.expected examples/exchange.sh "$program" examples/names.hex serve examples/trees/small.toml auto
same_text 'the watching' examples/watching.expected examples/exchange.sh "$program" examples/watching.hex serve examples/trees/small.toml auto
same_text 'the turns' examples/turns.expected examples/exchange.sh "$program" examples/turns.hex serve examples/trees/mounted_pair.toml given
same_text 'the exchange' examples/exchange.expected examples/exchange.sh "$program" examples/exchange.hex file examples/hello
same_text 'the trees' examples/trees.expected examples/trees.sh "$program"

echo "$passed passed, $failed failed"
[ "$failed" -eq 0 ]
