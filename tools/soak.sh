#!/usr/bin/env bash
# soak.sh VFS [FRAMES]: sessions of so many frames (ten million) over three servers, in both modes: Opens of directories, of files
# over two mounts and to make a file, watchers, tokens, renames, Clones, Unlinks and Close frames. At each tenth it tells the memory
# that the program has then and the time a frame. Memory may grow by the pages of the numbers that were used alone, and a frame's time
# not at all. Then thousands of endpoints, each with 4,096 messages that wait and are served before the next one's come.
set -eu
export LC_ALL=C
vfs=$(realpath "$1") frames=${2-10000000}
cd "$(dirname "$0")/.."
work=$(mktemp -d)
trap 'rm -rf "$work"' EXIT
source tools/frames.sh

# Begins a session that reads from descriptor 3.
begin() { # MODE
    rm -f "$work/in"
    mkfifo "$work/in"
    "$vfs" serve "$work/tree" "$1" < "$work/in" > /dev/null &
    program=$!
    exec 3> "$work/in"
}

# Waits until the program has served what was written, and then tells its memory in KiB and its processor time in hundredths of a
# second.
settled() {
    local before=-1 now
    while :; do
        now=$(awk '{ print $14 + $15 }' "/proc/$program/stat")
        [ "$now" = "$before" ] && grep -q '^State:.S' "/proc/$program/status" && break
        before=$now
        sleep 0.1
    done
    echo "$(awk '/^VmRSS/ { print $2 }' "/proc/$program/status") $now"
}

finish() {
    exec 3>&-
    wait "$program"
}

# A round has 23 frames, and uses 5 numbers.
session() { # FIRST LAST
    frames "for (k = $1; k <= $2; k++) {
        n = 5 * k
        open_path(1, n, \"d\", 454); watch(n, n + 1, 31); make_file(n, n + 2, \"new\"); turn(0, 100)
        write(n + 2, 5); text(\"hello\"); read_at(n + 2, 5, 0); token(n); turn(0, 100); rename(n, \"new\", 2147483647 + k, \"old\")
        open_path(1, n + 3, \"m/m/g\", 2); turn(0, 100); turn(1, 100); turn(2, 100); read(n + 3, 5); clone(n + 3, n + 4)
        unlink(n, \"old\"); turn(0, 100); turn(2, 100)
        hang_up(n); hang_up(n + 1); hang_up(n + 2); hang_up(n + 3); hang_up(n + 4)
    }"
}
rounds=$((frames / 230)) # of a tenth

soak() { # MODE
    local tenth memory time first=0 before=0 start
    echo "vfs serve in mode $1, $((230 * rounds)) frames"
    begin "$1"
    for tenth in 1 2 3 4 5 6 7 8 9 10; do
        session $((1 + (tenth - 1) * rounds)) $((tenth * rounds)) >&3
        read -r memory time <<< "$(settled)"
        if [ "$tenth" -eq 1 ]; then first=$memory start=$time; fi
        awk -v tenth=$tenth -v memory="$memory" -v spent=$((time - before)) -v count=$((23 * rounds)) 'BEGIN {
            printf "  tenth %2d: %7d KiB, %6.1f ns a frame\n", tenth, memory, spent * 1e7 / count }'
        last=$((time - before)) before=$time
    done
    finish
    awk -v grown=$((memory - first)) -v numbers=$((9 * 5 * rounds)) 'BEGIN {
        each = grown * 1024 / numbers
        printf "  from the first tenth on %d KiB more for %d numbers that were used: %.2f bytes each\n", grown, numbers, each
        exit each > 3 && grown > 1024 }' || { echo "soak: memory grows by more than numbers" >&2; exit 1; }
    [ "$last" -le $((start * 3 / 2 + 5)) ] || { echo "soak: a frame gets slower" >&2; exit 1; }
}

cat > "$work/tree" <<'TREE'
version = 1
[[server]]
name = "a"
[[server]]
name = "b"
[[server]]
name = "c"
[[node]]
server = "a"
path = "d"
kind = "dir"
[[node]]
server = "c"
path = "g"
kind = "file"
text = "remote"
[[mount]]
server = "a"
path = "m"
target = "b"
at = "."
[[mount]]
server = "b"
path = "m"
target = "c"
at = "."
[[client]]
endpoint = 1
server = "a"
path = "."
TREE
soak auto
soak given

# In mode given 4,096 messages wait on one endpoint and are served, then on the next.
endpoints=2000
echo "vfs serve in mode given, 4,096 messages on each of $endpoints endpoints in turn"
tree 1 > "$work/tree"
begin given
frames "for (n = 2; n < $endpoints + 2; n++) { open_path(1, n, \"large\", 2); turn(0, 1) }" >&3
read -r first time <<< "$(settled)"
before=$first
for part in 1 2 3 4 5; do
    frames "for (n = 2 + ($part - 1) * $endpoints / 5; n < 2 + $part * $endpoints / 5; n++) {
        for (k = 0; k < 4096; k++) sync(n)
        turn(0, 4096)
    }" >&3
    read -r memory time <<< "$(settled)"
    echo "  after $((part * endpoints / 5)) endpoints: $memory KiB, $(((memory - before) * 5 * 1024 / endpoints)) bytes for each of these"
    before=$memory
done
finish
