# frames.sh: what the scripts of measures share, which read it in: frames as awk writes them, rounds of them, and trees. They set `work`,
# a folder of their own.

# Words of awk for frames with the bytes of their messages: numbers of four and of eight bytes, padded
# texts, the beginnings of a message and of a request with its ordinal, and then each frame that is sent. A
# flexible call of an unknown method is replied to whatever handles it has, and the endpoints that it carries die.
writing='
    function word(n) { printf "%c%c%c%c", n % 256, int(n / 256) % 256, int(n / 65536) % 256, int(n / 16777216) }
    function words(n, more) { word(n); word(more) }
    function filled() { words(4294967295, 4294967295) }
    function zeros(count,    i) { for (i = 0; i < count; i++) printf "%c", 0 }
    function padded(size) { return 8 * int((size + 7) / 8) }
    function text(t) { printf "%s", t; zeros(padded(length(t)) - length(t)) }
    function message(endpoint, handles, size) { word(endpoint); printf "%c%c%c%c", 1, handles, 0, 0; word(size) }
    function asks(txid, low, high) { word(txid); printf "%c%c%c%c", 2, 0, 0, 1; words(low, high) }
    function calls(endpoint, low, high) { message(endpoint, 0, 16); asks(1, low, high) }
    function hang_up(endpoint) { word(endpoint); printf "%c%c%c%c", 2, 0, 0, 0; word(0) }
    function turn(server, count) { word(server); printf "%c%c%c%c", 3, 0, 0, 0; words(4, count) }
    function pick(endpoint) { word(endpoint); printf "%c%c%c%c", 4, 0, 0, 0; word(0) }
    function open_path(endpoint, object, name, flags, more) {
        message(endpoint, 1, 64 + padded(length(name))); word(object)
        asks(0, 4286338262, 800870331)
        words(length(name), 0); filled(); words(flags, more); words(0, 0); filled(); words(4294967295, 0); text(name)
    }
    function make_file(endpoint, object, name) { open_path(endpoint, object, name, 6, 520) }
    function clone(endpoint, object) { message(endpoint, 1, 24); word(object); asks(0, 2719386233, 551069611); words(4294967295, 0) }
    function watch(endpoint, object, mask) {
        message(endpoint, 1, 32); word(object)
        asks(1, 2773604473, 1926443193); words(mask, 0); words(4294967295, 0)
    }
    function with_token(endpoint, low, high, from, held, to) {
        message(endpoint, 1, 56 + padded(length(from)) + padded(length(to))); word(held)
        asks(2, low, high)
        words(length(from), 0); filled(); words(4294967295, 0); words(length(to), 0); filled(); text(from); text(to)
    }
    function rename(endpoint, from, held, to) { with_token(endpoint, 999893214, 1885398898, from, held, to) }
    function link(endpoint, from, held, to) { with_token(endpoint, 2561048902, 61518917, from, held, to) }
    function unlink(endpoint, name) {
        message(endpoint, 0, 48 + padded(length(name))); asks(1, 2811067373, 1963590438)
        words(length(name), 0); filled(); words(0, 0); filled(); text(name)
    }
    function close_call(endpoint) { calls(endpoint, 2224862296, 1962267203) }
    function query(endpoint) { calls(endpoint, 2649553926, 643362286) }
    function sync(endpoint) { calls(endpoint, 179690569, 744237002) }
    function token(endpoint) { calls(endpoint, 1433922059, 740150317) }
    function echo(endpoint, value) {
        message(endpoint, 0, 32 + padded(length(value))); asks(1, 1389995542, 1975002958)
        words(length(value), 0); filled(); text(value)
    }
    function list(endpoint, size) { message(endpoint, 0, 24); asks(1, 711692564, 95472729); words(size, 0) }
    function rewind(endpoint) { calls(endpoint, 4161095513, 2110238997) }
    function read(endpoint, count) { message(endpoint, 0, 24); asks(1, 2444755276, 1089634246); words(count, 0) }
    function read_at(endpoint, count, offset) { message(endpoint, 0, 32); asks(1, 2785899070, 369599123); words(count, 0); words(offset, 0) }
    function write(endpoint, size) { message(endpoint, 0, 32 + padded(size)); asks(1, 3325755781, 1234175272); words(size, 0); filled() }
    function write_at(endpoint, size, offset) {
        message(endpoint, 0, 40 + padded(size)); asks(1, 73300267, 2034167744); words(size, 0); filled(); words(offset, 0)
    }
    function seek(endpoint, offset) { message(endpoint, 0, 32); asks(1, 372003335, 2013761896); words(0, 0); words(offset, 0) }
    function resize(endpoint, size) { message(endpoint, 0, 24); asks(1, 87389242, 729842271); words(size, 0) }
    function attributes(endpoint) { message(endpoint, 0, 24); asks(1, 954860859, 1027839654); words(127, 0) }
    function unknown(endpoint, handles, first,    i) {
        message(endpoint, handles, 16)
        for (i = 0; i < handles; i++) word(first + i)
        word(1); printf "%c%c%c%c", 2, 0, 128, 1; words(1, 0)
    }'

# The frames that such words write.
frames() { # WORDS
    awk "$writing BEGIN { $1 }"
}

# So many rounds of them: each has its number in `k`, and one of so many names in `name`.
rounds() { # ROUNDS WORDS [NAMES]
    frames "for (k = 1; k <= $1; k++) { name = sprintf(\"n%04d\", 7919 * k % ${3-1}); $2 }"
}

# So many times the frames on standard input.
many() { # TIMES
    local size times=$1
    cat > "$work/many"
    size=$(wc -c < "$work/many")
    while [ "$(wc -c < "$work/many")" -lt $((size * times)) ]; do
        cat "$work/many" "$work/many" > "$work/twice"
        mv "$work/twice" "$work/many"
    done
    head -c $((size * times)) "$work/many"
}

# Opens of a name on endpoint 1, with these numbers as the new endpoints.
opens() { # NAME FIRST LAST
    frames "for (n = $2; n <= $3; n++) open_path(1, n, \"$1\", 2)"
}

# A server with a client in its root; the first one has the nodes, and its client endpoint 1.
server() { # NAME ENDPOINT
    printf '[[server]]\nname = "%s"\n[[client]]\nendpoint = %d\nserver = "%s"\npath = "."\n' "$1" "$2" "$1"
}

first_server() {
    echo "version = 1"
    server a 1
}

# So many nodes in the root, whose names have their numbers in this form.
nodes() { # FORM COUNT KIND
    awk -v form="$1" -v count="$2" -v kind="$3" 'BEGIN {
        for (n = 0; n < count; n++) printf "[[node]]\nserver = \"a\"\npath = \"" form "\"\nkind = \"%s\"\n", n, kind
    }'
}

# A root with so many files, and a large one.
tree() { # FILES
    first_server
    printf '[[node]]\nserver = "a"\npath = "large"\nkind = "file"\nhex = "%s"\n' "$(head -c 65536 /dev/zero | od -An -v -tx1 | tr -d ' \n')"
    nodes n%04d "$1" file
}
