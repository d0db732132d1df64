#!/usr/bin/env bash
# starve.sh VFS [PLAYER]: refuses each allocation of the program in turn, the first, the second and so on until a run meets none with
# that number, for each of the sessions below. A run whose allocation was refused ends with status 10 and its note, and has written a
# front of the whole output: whole frames of `serve`, whole lines of `run`, and nothing of the commands that say so. Or it goes on
# without that memory to its whole output; or the memory was for the words of `main`, which ends with 10 and no note. PLAYER is the
# built `io_conformance`: beside its rows it hears frames in a world, which answers nothing more once memory was wanting.
set -eu
export LC_ALL=C
vfs=$(realpath "$1") player=${2:+$(realpath "$2")}
cd "$(dirname "$0")/.."
command -v cc > /dev/null || { echo "cc isn't there: no allocation is refused"; exit 0; }
work=$(mktemp -d)
trap 'rm -rf "$work"' EXIT
source tools/frames.sh
cc -O2 -Wall -shared -fPIC -o "$work/refuse.so" tools/refuse.c -ldl

# The sizes of fronts that end between frames, or between lines.
frame_ends() { od -An -v -tu1 -w1 "$1" | awk '
    BEGIN { print 0 }
    { byte[NR % 12] = $1 }
    NR == at + 12 {
        at += 12 + 4 * byte[(at + 6) % 12] + byte[(at + 9) % 12] + 256 * (byte[(at + 10) % 12] + 256 * byte[(at + 11) % 12])
        print at
    }'; }
line_ends() { awk 'BEGIN { print 0 } { at += length($0) + 1; print at }' "$1"; }
nothing() { echo 0; }

fail() { # WHAT
    echo "starve: $name, allocation $number: $1" >&2
    exit 1
}

# The run that a refused allocation led to is one of the three that are right.
judge() { # STATUS
    local size
    if [ "$1" -eq 0 ]; then
        cmp -s "$work/out" "$work/whole" && cmp -s "$work/notes" "$work/none" || fail "it ended well without its whole output"
        went_on="$went_on $number"
        return
    fi
    [ "$1" -eq 10 ] || fail "status $1"
    size=$(wc -c < "$work/out")
    if [ ! -s "$work/notes" ]; then
        [ "$size" -eq 0 ] || fail "no note behind an output"
        words=$((words + 1))
        return
    fi
    [ "$(cat "$work/notes")" = "no memory" ] || fail "the note is $(cat "$work/notes")"
    cmp -s -n "$size" "$work/out" "$work/whole" && grep -qx "$size" "$work/ends" || fail "the output isn't a front of the whole one"
}

# Refuses each allocation of a run over the input in turn.
starve() { # NAME ENDS WORD..
    local name=$1 ends=$2 number=0 words=0 went_on='' status
    shift 2
    "$@" < "$work/in" > "$work/whole" 2> "$work/none"
    "$ends" "$work/whole" > "$work/ends"
    rm -f "$work/met"
    while :; do
        number=$((number + 1)) status=0
        REFUSE=$number REFUSED=$work/met LD_PRELOAD=$work/refuse.so "$@" < "$work/in" > "$work/out" 2> "$work/notes" || status=$?
        [ -e "$work/met" ] || break
        rm "$work/met"
        judge "$status"
    done
    cmp -s "$work/out" "$work/whole" || fail "a run without a refusal writes something else"
    [ "$number" -gt 1 ] || fail "no allocation was met"
    refused=$((refused + number - 1))
    echo "  $name: $((number - 1)) refused, $words of them for main's words${went_on:+, and without these it went on:$went_on}"
}
refused=0

tree=examples/trees/every_kind.toml
# A session as frames over every way in which the program hears them, and as a script.
play() { # NAME SCRIPT MODE FRAMES
    printf '%s\n' "$3" "$2" > "$work/script"
    : > "$work/in"
    starve "run, $1" line_ends "$vfs" run "$tree" "$work/script"
    frames "$4" > "$work/in"
    for mode in ${3/auto/auto given}; do starve "serve in mode $mode, $1" frame_ends "$vfs" serve "$tree" "$mode"; done
}

echo "vfs, each allocation refused in turn"
frames 'read(1, 5)' > "$work/in"
starve "file, a Read" nothing "$vfs" file examples/hello
frames 'read(1, 5); read(1, 9000); unknown(1, 2, 7); read(7, 1); pick(1); turn(0, 1); read(1, 20); query(1); hang_up(1)' > "$work/in"
starve "file, all that it answers" nothing "$vfs" file examples/hello
: > "$work/in"
starve "check" nothing "$vfs" check "$tree"
starve "make of one round" nothing "$vfs" make 1
starve "make of ten rounds" nothing "$vfs" make 10

play "a rename before a forwarded Open" '
open 1 m 0x180 4
token 4
turn 0 1
turn 1 2
open 1 m/g 0x2 2
clone 2 3
turn 0 1
rename 4 g 2147483648 h
pick 4
turn 1 1' given '
    open_path(1, 4, "m", 384); token(4); turn(0, 1); turn(1, 2); open_path(1, 2, "m/g", 2); clone(2, 3); turn(0, 1)
    rename(4, "g", 2147483648, "h"); pick(4); turn(1, 1)'

play "a watched directory" '
open 1 d 0x1c0 2
watch 2 31 3
open 2 b 0x20800000000 4' auto '
    open_path(1, 2, "d", 448); watch(2, 3, 31); open_path(2, 4, "b", 0, 520)'

# Each method over every kind of node, a name that comes and goes beside watchers, a mount, and what the link refuses.
play "each method" '
open 1 d/f 0x1000000000006 2
attributes 2 0x37
query 2
sync 2
read 2 5
readat 2 5 6
write 2 6869
writeat 2 6869 0
seek 2 0 0
resize 2 3
clone 2 3
open 1 d 0x1c0 4
watch 4 31 5
token 4
turn 0 100
rename 4 f 2147483648 g
token 4
turn 0 100
link 4 g 2147483649 h
unlink 4 h 0
list 4 8192
rewind 4
open 4 b 0x20800000006 6
open 1 echo 0x1 7
echo 7 6869
open 1 m/g 0x2 8
read 8 10
raw 1 9,10 00
read 99 1
close 3
hangup 2' auto '
    open_path(1, 2, "d/f", 6, 65536); attributes(2); query(2); sync(2); read(2, 5); read_at(2, 5, 6)
    write(2, 2); text("hi"); write_at(2, 2, 0); text("hi"); seek(2, 0); resize(2, 3); clone(2, 3)
    open_path(1, 4, "d", 448); watch(4, 5, 31); token(4); turn(0, 100); rename(4, "f", 2147483648, "g")
    token(4); turn(0, 100); link(4, "g", 2147483649, "h"); unlink(4, "h"); list(4, 8192); rewind(4)
    open_path(4, 6, "b", 6, 520); open_path(1, 7, "echo", 1); echo(7, "hi"); open_path(1, 8, "m/g", 2); read(8, 10)
    unknown(1, 2, 9); read(99, 1); close_call(3); hang_up(2)'

# A world that heard all its frames holds, and so does one that is spent; where the refused memory was the player's own it ends with 1.
if [ -n "$player" ]; then
    name=worlds number=0 ended=0
    while :; do
        number=$((number + 1)) status=0
        (cd crates/io_conformance/data && REFUSE=$number REFUSED=$work/met LD_PRELOAD=$work/refuse.so "$player" memory.spent) \
            > "$work/out" 2> "$work/notes" || status=$?
        [ -e "$work/met" ] || break
        rm "$work/met"
        if grep -q wanted "$work/out" || [ "$status" -gt 1 ]; then fail "status $status: $(cat "$work/out")"; fi
        ended=$((ended + status))
    done
    [ "$number" -gt 1 ] || fail "no allocation was met"
    refused=$((refused + number - 1))
    echo "  worlds that are spent: $((number - 1)) refused, of which $ended ended the player"
fi
echo "$refused allocations refused"
