#!/usr/bin/env bash
# bench.sh VFS [WORK]: processor time (user and system) and peak memory of the program, measured from outside; and, where valgrind
# is there, the instructions a frame, by the difference of two lengths. With a second word only the works whose name has it.
set -eu
export LC_ALL=C
vfs=$(realpath "$1") only=${2-}
cd "$(dirname "$0")/.."
work=$(mktemp -d)
trap 'rm -rf "$work"' EXIT
TIMEFORMAT='%U %S'
source tools/frames.sh
command -v valgrind > "$work/found" || echo "valgrind isn't there: no instructions are counted"

# The seconds of a run over these frames; what it writes goes to `out`.
spent() { # FRAMES WORD..
    { time "$vfs" "${@:2}" < "$1" > "$work/out"; } 2> "$work/spent"
    awk '{ print $1 + $2 }' "$work/spent"
}

# The instructions of a run over these frames.
instructions() { # FRAMES WORD..
    valgrind --tool=callgrind --callgrind-out-file=/dev/null "$vfs" "${@:2}" 2>&1 < "$1" > /dev/null |
        awk '/Collected/ { print $NF }'
}

# The instructions of one frame: what a run over twice as many rounds takes more.
by_difference() { # FRAMES-A-ROUND ROUNDS MAKER WORD..
    local frames=$1 rounds=$2 maker=$3
    [ -s "$work/found" ] || { echo -; return; }
    "$maker" "$rounds" > "$work/few"
    "$maker" $((2 * rounds)) > "$work/more"
    echo "$(instructions "$work/few" "${@:4}") $(instructions "$work/more" "${@:4}")" |
        awk -v count=$((frames * rounds)) '{ printf "%.1f", ($2 - $1) / count }'
}

# Frames that come in rounds: what one of them takes, without what a run over no round takes. A maker writes the frames of so many
# rounds, and what goes before them.
measure() { # NAME FRAMES-A-ROUND ROUNDS ROUNDS-COUNTED MAKER WORD..
    local name=$1 frames=$2 rounds=$3 counted=$4 maker=$5
    [[ $name == *$only* ]] || return 0
    shift 5
    "$maker" 0 > "$work/frames"
    local before all
    before=$(spent "$work/frames" "$@")
    "$maker" "$rounds" > "$work/frames"
    all=$(spent "$work/frames" "$@")
    awk -v name="$name" -v count=$((frames * rounds)) -v seconds="$all" -v before="$before" \
        -v each="$(by_difference "$frames" "$counted" "$maker" "$@")" 'BEGIN {
        printf "  %-58s %8d frames %9.1f ns %10s instructions each\n", name, count, (seconds - before) * 1e9 / count, each
    }'
}

serving() { # NAME FRAMES-A-ROUND ROUNDS ROUNDS-COUNTED MAKER [MODE]
    measure "${@:1:5}" serve "$work/tree" "${6-auto}"
}

copying() { # FRAMES
    { time dd bs=65536 iflag=fullblock status=none < "$1" > "$work/out"; } 2> "$work/spent"
    awk -v bytes="$(wc -c < "$1")" '{ printf "  dd of these %d bytes: %.1f ms\n", bytes, ($1 + $2) * 1e3 }' "$work/spent"
}

peak() { # WHERE WORD..
    [ -x /usr/bin/time ] || return 0
    /usr/bin/time -f '%M' -o "$work/peak" "$vfs" "${@:2}" > "$work/out"
    echo "  peak memory $1 $(cat "$work/peak") KiB, $(wc -c < "$work/out") bytes out"
}

# A run that has no frames: its time, and its instructions in all.
whole() { # NAME WORD..
    [[ $1 == *$only* ]] || return 0
    local all=-
    if [ -s "$work/found" ]; then all=$(instructions /dev/null "${@:2}"); fi
    printf '  %-58s %9.1f ms, %s instructions in all\n' "$1" "$(spent /dev/null "${@:2}" | awk '{ print $1 * 1e3 }')" "$all"
}

# The position passes the end of a file of 65,536 bytes after the first 13,108 Reads of 5 bytes, and the others get no byte.
small_reads() { frames 'read(1, 5)' | many "$1"; }
echo "vfs file"
head -c 65536 /dev/zero > "$work/file"
measure "Reads of 5 bytes (goal: 33 ns)" 1 1000000 2000 small_reads file "$work/file"
small_reads 1000000 > "$work/frames"
copying "$work/frames"
peak "of a million of them" file "$work/file" < "$work/frames"

echo "vfs serve over a directory of 4,001 names"
tree 4000 > "$work/tree"
whole "no frame: the tree is read (goal: 5.5 ms)" serve "$work/tree" auto
whole "check of that tree (goal: 5.5 ms)" check "$work/tree"
reads() { opens large 2 2; frames 'read(2, 5)' | many "$1"; }
serving "Reads of 5 bytes (goal: 75 ns)" 1 1000000 2000 reads
same_opens() { rounds "$1" 'open_path(1, k + 1, "n2000", 2); hang_up(k + 1)'; }
serving "Opens of a name, and a Close frame behind each" 2 100000 1000 same_opens
reads_beside() { opens large 2 2; opens n2000 3 4001; frames 'read(2, 5)' | many "$1"; }
serving "Reads beside 4,000 connections" 1 1000000 2000 reads_beside
reads_in_turn() { opens large 2 4001; rounds "$1" 'read(2 + 7919 * k % 4000, 5)'; }
serving "Reads on 4,000 connections (goal: 120 ns)" 1 200000 2000 reads_in_turn
other_opens() { rounds "$1" 'open_path(1, k + 1, name, 2); hang_up(k + 1)' 4000; }
serving "Opens of 4,000 names (goal: 320 ns)" 2 200000 1000 other_opens

# Each round of these works on a new connection to another name: what a file is asked for, a Clone, a listing behind it, and every
# eighth round the name is taken out. Eight rounds have 113 frames.
most_methods() {
    rounds $((8 * $1)) '
        n = 2 * k
        open_path(1, n, name, 22)
        write(n, 5); text("hello"); seek(n, 0); read(n, 5); read_at(n, 5, 2); attributes(n); resize(n, 3)
        query(n); sync(n)
        clone(n, n + 1); read(n + 1, 5); hang_up(n); hang_up(n + 1)
        if (k % 8 == 0) unlink(1, name)
        list(1, 256)' 4000
}
serving "calls of most methods (goal: 330 ns)" 113 2655 25 most_methods

# Mode given: 4,096 Reads on 64 endpoints in turn, and then as many Picks in turn, again and again.
picks() {
    opens large 2 65
    frames 'turn(0, 64)'
    frames 'for (k = 0; k < 4096; k++) read(2 + k % 64, 5); for (k = 0; k < 4096; k++) pick(2 + k % 64)' | many "$1"
}
serving "mode given, Reads and Picks (goal: 110 ns)" 8192 62 1 picks given

echo "vfs serve, 8,192 bytes at a time: a file of 65,536 is written or read, and a Seek goes back to its start"
large_writes() {
    frames 'open_path(1, 2, "large", 6)'
    frames 'for (k = 0; k < 8; k++) { write(2, 8192); zeros(8192) } seek(2, 0)' | many "$1"
}
serving "Writes" 9 3050 50 large_writes
large_reads() {
    opens large 2 2
    frames 'for (k = 0; k < 8; k++) read(2, 8192); seek(2, 0)' | many "$1"
}
serving "Reads" 9 3050 50 large_reads

echo "vfs run, show and make"
# Opens of one file, Reads on it, and Close frames: 20,000 rounds are a script of some 900,000 bytes.
script() { awk -v rounds="$1" 'BEGIN {
    print "auto"
    for (n = 2; n < rounds + 2; n++) printf "open 1 n2000 0x2 %d\nread %d 5\nhangup %d\n", n, n, n
}'; }
{ first_server; nodes n200%d 1 file; } > "$work/tree"
measure "run: a line of a script (goal: 25 ms for 60,000)" 3 20000 500 script run "$work/tree" /dev/stdin
# What answers Reads of 8,192 bytes, as frames.
tree 0 > "$work/tree"
large_reads 2 > "$work/frames"
"$vfs" serve "$work/tree" auto < "$work/frames" > "$work/replies"
large_replies() { many "$1" < "$work/replies"; }
measure "show: replies to Reads of 8,192 bytes (goal: 70 ns)" 18 1500 5 large_replies show
small_reads 8 > "$work/frames"
"$vfs" file "$work/file" < "$work/frames" > "$work/replies"
measure "show: replies to Reads of 5 bytes" 8 20000 250 large_replies show
for rounds in 1000 2000 10000; do whole "make $rounds, 3 frames a round (goal of 10,000: 30 ms)" make "$rounds"; done

# Rounds of frames over a root with so many names. One of the names is `large`, and one `new`, which comes and goes.
among() { # NAME FRAMES-A-ROUND ROUNDS WORDS
    local words=$4
    for names in 16 256 4096; do
        tree $((names - 2)) > "$work/tree"
        named() { rounds "$1" "$words" $((names - 2)); }
        serving "$names names: $1" "$2" "$3" 500 named
    done
}

# The same of listings from start to end, in messages of so many bytes, which have so many names at most: the entry of a name of 5
# bytes has 15.
listings() { # NAME BYTES NAMES-A-MESSAGE NAMES-IN-ALL
    local size=$2
    for names in 16 256 4096; do
        tree $((names - 2)) > "$work/tree"
        messages=$((names / $3 + 1)) times=$(($4 / names))
        listed() { frames "for (k = 0; k < $messages; k++) list(1, $size); rewind(1)" | many "$1"; }
        serving "$names names: $1" $((messages + 1)) "$times" $((times < 100 ? 1 : times / 100)) listed
    done
}

making='make_file(1, k + 1, "new"); unlink(1, "new"); hang_up(k + 1)'
echo "vfs serve over a directory of so many names"
among "Open, Close frame" 2 100000 'open_path(1, k + 1, name, 2); hang_up(k + 1)'
among "Open to make, Unlink, Close frame" 3 100000 "$making"
among "Renames there and back, tokens" 4 100000 \
    'held = 2147483646 + 2 * k; token(1); rename(1, name, held, "new"); token(1); rename(1, "new", held + 1, name)'
among "Link, its token, Unlink" 3 100000 'token(1); link(1, name, 2147483647 + k, "new"); unlink(1, "new")'
listings "all listed, Rewind" 8192 546 4000000
listings "listed one by one, Rewind" 15 1 400000
tree 14 > "$work/tree"
for count in 10 20000; do
    rounds "$count" "$making" > "$work/frames"
    peak "after $count rounds of Open to make, Unlink, Close frame:" serve "$work/tree" auto < "$work/frames"
done

# Rounds of frames on endpoint 1, beside so many endpoints that live: they travel in messages to another server, which wait until the
# end in mode given.
beside() { # NAME FRAMES-A-ROUND ROUNDS WORDS
    local words=$4
    for others in 100 60000; do
        crowd() { frames "for (n = $others; n > 0; n -= 64) unknown(2, n < 64 ? n : 64, 2 + n)"; rounds "$1" "$words"; }
        serving "beside $others: $1" "$2" "$3" 200 crowd given
    done
}

echo "vfs serve in mode given beside so many live endpoints"
{ tree 0; server b 2; } > "$work/tree"
beside "Open, Close frame, Turn" 3 100000 'open_path(1, 100000 + k, "large", 2); hang_up(100000 + k); turn(0, 2)'
beside "message of no handle, Turn" 2 200000 'unknown(1, 0); turn(0, 1)'
beside "message of 1 handle, Turn" 2 100000 'unknown(1, 1, 100000 + k); turn(0, 1)'
beside "message of 64 handles, Turn" 2 20000 'unknown(1, 64, 100000 + 64 * k); turn(0, 1)'

# What a change costs where nobody watches mustn't grow with who watches elsewhere.
echo "vfs serve over 63 directories: Renames in the root, each behind a token"
{ first_server; nodes d%02d 63 dir; nodes n%04d 1 file; } > "$work/tree"
renames() { rounds "$1" 'token(1); rename(1, k % 2 ? name : "new", 2147483647 + k, k % 2 ? "new" : name)'; }
serving "beside no watchers" 2 100000 500 renames
# 64 watchers of names that come and go, for each of the directories; the connection that they came on hangs up.
watched_elsewhere() {
    frames 'for (d = 0; d < 63; d++) {
        n = 100 + 65 * d
        open_path(1, n, sprintf("d%02d", d), 64)
        for (i = 1; i <= 64; i++) watch(n, n + i, 6)
        hang_up(n)
    }'
    renames "$1"
}
serving "beside 4,032 watchers of the others" 2 100000 500 watched_elsewhere
watched_here() { frames 'for (n = 2; n < 66; n++) watch(1, n, 6)'; renames "$1"; }
serving "beside 64 watchers of the root" 2 100000 500 watched_here

# Numbers and names that meet in a table with a known hash, beside such in order: what a client can make of it.
echo "vfs serve, picked on purpose"
tree 1 > "$work/tree"
reads_of() { # ROUNDS, on the endpoints of `numbers`
    awk "$writing"' { number[NR] = $1; open_path(1, $1, "large", 2) }
        END { for (k = 1; k <= rounds; k++) read(number[1 + 7919 * k % NR], 5) }' rounds="$1" "$work/numbers"
}
seq 2 4001 > "$work/numbers"
serving "Reads on 4,000 connections with numbers in order" 1 100000 1000 reads_of
cp tools/picked/numbers.txt "$work/numbers"
serving "Reads on 4,000 connections with picked numbers" 1 100000 1000 reads_of
opens_of() { # ROUNDS, of the names of `names`
    awk "$writing"' { name[NR] = $1 }
        END { for (k = 1; k <= rounds; k++) { open_path(1, k + 1, name[1 + 7919 * k % NR], 2); hang_up(k + 1) } }' rounds="$1" "$work/names"
}
named_tree() {
    first_server
    awk '{ printf "[[node]]\nserver = \"a\"\npath = \"%s\"\nkind = \"file\"\n", $1 }' "$work/names"
}
awk 'BEGIN { for (n = 0; n < 4096; n++) printf "n%04d\n", n }' > "$work/names"
named_tree > "$work/tree"
serving "Opens of 4,096 names in order, and a Close frame behind each" 2 100000 1000 opens_of
cp tools/picked/names.txt "$work/names"
named_tree > "$work/tree"
serving "Opens of 4,096 picked names, and a Close frame behind each" 2 100000 1000 opens_of
