#!/usr/bin/env bash
# audit.sh PROGRAM [VFS]: runs the program on the recordings below, each over a tree, and compares the exit status, the note and the
# verdict. With VFS sessions of it are recorded as well, in three orders of serving, and each must be lawful. What fails is shown; the
# last line counts.
set -u
cd "$(dirname "$0")/.." || exit 1
program=$1 vfs=${2-}
work=$(mktemp -d) || exit 1
trap 'rm -rf "$work"' EXIT
passed=0 failed=0

# Records, in hexadecimal, by the name that the recordings have for them.
declare -A bytes=(
    # In: Opens of `nope` on endpoint 1, with the new endpoints 2 and 3.
    [open]='00 01000000 01 01 0000 48000000 02000000  00000000 02000001 d6547cffbb4fbc2f
        0400000000000000 ffffffffffffffff 0200000000000000 0000000000000000 ffffffffffffffff ffffffff 00000000
        6e6f706500000000'
    [other]='00 01000000 01 01 0000 48000000 03000000  00000000 02000001 d6547cffbb4fbc2f
        0400000000000000 ffffffffffffffff 0200000000000000 0000000000000000 ffffffffffffffff ffffffff 00000000
        6e6f706500000000'
    # Served, by their endpoints.
    [one]='01 01000000'
    [two]='01 02000000'
    [seven]='01 07000000'
    [end_of_mount]='01 00000040'
    # Out: on endpoints 2 and 3 the epitaph NOT_FOUND, and that each is closed.
    [missing]='02 02000000 01 00 0000 18000000  00000000 02000001 ffffffffffffffff e7ffffff 00000000'
    [gone]='02 02000000 02 00 0000 00000000'
    [missing_too]='02 03000000 01 00 0000 18000000  00000000 02000001 ffffffffffffffff e7ffffff 00000000'
    [gone_too]='02 03000000 02 00 0000 00000000'
    # The same epitaph with the status ACCESS_DENIED.
    [denied]='02 02000000 01 00 0000 18000000  00000000 02000001 ffffffffffffffff e2ffffff 00000000'
    # In: an Open of the file `d/f` as 2, a Read of 5 bytes there, and that the client closes 2. Out: what the Read is answered.
    [file]='00 01000000 01 01 0000 48000000 02000000  00000000 02000001 d6547cffbb4fbc2f
        0300000000000000 ffffffffffffffff 0200000000000000 0000000000000000 ffffffffffffffff ffffffff 00000000
        642f660000000000'
    [read]='00 02000000 01 00 0000 18000000  03000000 02000001 4c01b891c67ff240  0500000000000000'
    [hello]='02 02000000 01 00 0000 38000000  03000000 02000001 4c01b891c67ff240
        0100000000000000 18000000 0000 0000  0500000000000000 ffffffffffffffff 68656c6c6f000000'
    [hang_up]='00 02000000 02 00 0000 00000000'
    # In: an Open of `m/g` as 2, behind a mount.
    [far]='00 01000000 01 01 0000 48000000 02000000  00000000 02000001 d6547cffbb4fbc2f
        0300000000000000 ffffffffffffffff 0200000000000000 0000000000000000 ffffffffffffffff ffffffff 00000000
        6d2f670000000000'
    # In: a Read on an endpoint that nobody knows. Out: that it is refused.
    [stray]='00 07000000 01 00 0000 18000000  01000000 02000001 4c01b891c67ff240  0500000000000000'
    [refused]='02 07000000 05 00 0000 04000000  f5ffffff'
    [end]='03'
    # No records: an unknown tag, a Served and an In cut short, frames that can't come in and can't go out, and a frame with a bad kind.
    [tag]='04'
    [half]='01 0100'
    [front]='00 01000000 01 01'
    [turn]='00 00000000 03 00 0000 04000000  01000000'
    [pick]='00 01000000 04 00 0000 00000000'
    [turn_out]='02 00000000 03 00 0000 04000000  01000000'
    [refused_in]='00 07000000 05 00 0000 04000000  f5ffffff'
    [kind]='00 01000000 09 00 0000 00000000'
)
usage='usage: audit TREE RECORDING'
small=examples/trees/small.toml
every=examples/trees/every_kind.toml

# What is recorded                  | tree | records                              | exit | verdict
cases="
nothing but the end                 | small | end                                 | 0 | lawful 1 records
an Open that finds nothing          | every | open one missing gone end           | 0 | lawful 5 records
the same without its serving        | every | open missing gone end               | 11 | record 1: wrong frame
two of them                         | small | open one missing gone other one missing_too gone_too end | 0 | lawful 9 records
two that wait                       | small | open other one missing gone one missing_too gone_too end | 0 | lawful 9 records
a Read                              | small | file one read two hello end         | 0 | lawful 6 records
a Read that waits behind its Open   | small | file read one two hello end         | 0 | lawful 6 records
a client's hang-up                  | small | file one hang_up two end            | 0 | lawful 5 records
a hang-up behind a Read             | small | file one read hang_up two hello two end | 0 | lawful 8 records
an Open behind a mount              | every | far one end_of_mount end            | 0 | lawful 4 records
a refusal                           | small | stray refused end                   | 0 | lawful 3 records
no record                           | small |                                     | 11 | record 0: bad record
an unknown tag at first             | small | tag                                 | 11 | record 0: bad record
an unknown tag                      | small | open one tag missing gone end       | 11 | record 2: bad record
an unknown tag at last              | small | open one missing gone tag           | 11 | record 4: bad record
no end                              | small | open one missing gone               | 11 | record 4: bad record
an end in the middle                | small | open one missing gone end open      | 11 | record 4: bad record
an end twice                        | small | end end                             | 11 | record 0: bad record
an end with a tag behind it         | small | open one missing gone end tag       | 11 | record 4: bad record
an end while frames are owed, and bytes behind it | small | open one missing end end | 11 | record 3: bad record
a Served that is cut short          | small | open half                           | 11 | record 1: bad record
a frame that is cut short           | small | front                               | 11 | record 0: bad record
a Turn that comes in                | small | open turn one missing gone end      | 11 | record 1: bad record
a Pick that comes in                | small | open pick missing gone end          | 11 | record 1: bad record
a Turn that goes out                | small | open one turn_out missing gone end  | 11 | record 2: bad record
a Refused that comes in             | small | refused_in refused end              | 11 | record 0: bad record
a bad kind of frame                 | small | open one missing kind gone end      | 11 | record 3: bad record
a frame that nobody asked for       | small | gone end                            | 11 | record 0: wrong frame
frames in another order             | small | open one gone missing end           | 11 | record 2: wrong frame
another status                      | small | open one denied gone end            | 11 | record 2: wrong frame
a frame twice                       | small | open one missing gone gone end      | 11 | record 4: wrong frame
a frame of another endpoint         | small | open one missing gone_too end       | 11 | record 3: wrong frame
frames of two servings, mixed       | small | open other one missing missing_too gone end | 11 | record 4: wrong frame
a frame left out before an In       | small | open one missing other one missing_too gone_too end | 11 | record 3: missing frame
a frame left out before a Served    | small | open other one missing one missing_too gone_too end | 11 | record 4: missing frame
a frame left out before the end     | small | open one missing end                | 11 | record 3: missing frame
no frame at all                     | small | open one end                        | 11 | record 2: missing frame
a refusal left out                  | small | stray end                           | 11 | record 1: missing frame
nothing to serve at first           | small | one end                             | 11 | record 0: nothing to serve
nothing more to serve               | small | open one missing gone one end       | 11 | record 4: nothing to serve
an endpoint that isn't bound yet    | small | file read two hello one end         | 11 | record 2: nothing to serve
an endpoint that is dead            | small | open one missing gone two end       | 11 | record 4: nothing to serve
an endpoint that nobody knows       | small | open seven one missing gone end     | 11 | record 1: nothing to serve
a mount end where nothing waits     | every | end_of_mount far one end            | 11 | record 0: nothing to serve
an Open that waits at the end       | small | open end                            | 11 | record 1: still waiting
a Read that waits at the end        | small | file one read end                   | 11 | record 3: still waiting
a hang-up that waits at the end     | small | file one hang_up end                | 11 | record 3: still waiting
an Open that waits behind a mount   | every | far one end                         | 11 | record 2: still waiting
"

# Compares the verdict, the note and the status with what they should be.
judge() { # WHAT STATUS WANTED-STATUS WANTED-NOTE WANTED-VERDICT
    if [ "$2" -eq "$3" ] && [ "$(cat "$work/note")" = "$4" ] && [ "$(cat "$work/out")" = "$5" ]; then
        passed=$((passed + 1))
        return
    fi
    failed=$((failed + 1))
    echo "FAILED: $1"
    echo "  wanted: status $3, note \"$4\", verdict \"$5\""
    echo "  got:    status $2, note \"$(cat "$work/note")\", verdict \"$(cat "$work/out")\""
}

# A program that never ends fails its case.
run() { # WORD..
    timeout 60 "$program" "$@" > "$work/out" 2> "$work/note"
}

while IFS='|' read -r what tree records status verdict; do
    [ -n "$what" ] || continue
    read -r what <<< "$what"
    read -r tree <<< "$tree"
    read -r status <<< "$status"
    read -r verdict <<< "$verdict"
    for name in $records; do
        tools/to-bytes.sh <<< "${bytes[$name]}"
    done > "$work/recording"
    run "${!tree}" "$work/recording"
    judge "$what" $? "$status" "" "$verdict"
done <<< "$cases"

# The causes that stop it before, in their order, and the largest recording that is taken.
printf 'version = 2\n' > "$work/wrong"
{ cat "$small"; printf '#'; head -c 1048576 /dev/zero | tr '\0' x; } > "$work/large"
tools/to-bytes.sh <<< "${bytes[end]}" > "$work/recording"
head -c 16777216 /dev/zero > "$work/most"
head -c 16777217 /dev/zero > "$work/over"
run; judge "no word" $? 1 "$usage" ""
run "$small"; judge "one word" $? 1 "$usage" ""
run "$small" "$work/recording" more; judge "a word too many" $? 1 "$usage" ""
run --help; judge "a word that asks for help" $? 1 "$usage" ""
run "$work/none" "$work/none"; judge "no tree" $? 5 "file failed" ""
run "$work/large" "$work/none"; judge "too large a tree" $? 5 "file too large" ""
run "$work/wrong" "$work/none"; judge "a tree that breaks a rule, and no recording" $? 2 "tree refused: rule 2 item 0" ""
run "$small" "$work/none"; judge "no recording" $? 5 "file failed" ""
run "$small" .; judge "a directory in place of a recording" $? 5 "file failed" ""
run "$small" "$work/most"; judge "a recording of the largest size" $? 11 "" "record 0: bad record"
run "$small" "$work/over"; judge "a recording that is too large" $? 5 "file too large" ""

# What a server of its own writes, served at once and as late as can be: lawful, and one record less is not.
recorded() { # TREE FRAMES ORDER
    if ! tools/record.sh "$vfs" "$program" "$1" "$3" "$2" > "$work/recording"; then : > "$work/recording"; fi
    run "$1" "$work/recording"
    judge "$2, $3" $? 0 "" "$(sed 's/^lawful [0-9]* records$/&/;t;s/.*/lawful/' "$work/out")"
    head -c -1 "$work/recording" > "$work/shorter"
    run "$1" "$work/shorter"
    judge "$2, $3, without its end" $? 11 "" "$(sed 's/^record [0-9]*: bad record$/&/;t;s/.*/bad record/' "$work/out")"
}
if [ -n "$vfs" ]; then
    for order in soon rising falling; do
        for frames in session changes names watching; do
            recorded "$small" "examples/$frames.hex" "$order"
        done
        recorded examples/trees/mounted_pair.toml examples/turns.hex "$order"
    done
fi

echo "$passed passed, $failed failed"
[ "$failed" -eq 0 ] && [ "$passed" -gt 0 ]
