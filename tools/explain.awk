# Prints frames of the link so that a person can read them: the bytes of each field beside what
# they mean. The input is the bytes in hexadecimal, as `od -An -v -tx1` writes them.
# -v name=TEXT heads each frame, as in `request 1`; -v from=N is the number of the first. The file
# -v watchers=FILE gets the endpoints that the Watches among requests carry: what comes back on them is
# events, without a header.

BEGIN {
    split("Message Close Turn Pick Refused", kinds, " ")
    read = "4c01b891c67ff240"; method[read] = "the method fuchsia.io/Readable.Read"
    open = "d6547cffbb4fbc2f"; method[open] = "the method fuchsia.io/Directory.Open"
    clone = "798a16a2aba7d820"; method[clone] = "the method fuchsia.unknown/Cloneable.Clone"
    method["85013bc628059049"] = "the method fuchsia.io/Writable.Write"
    method["3e720da693a20716"] = "the method fuchsia.io/File.ReadAt"
    unlink = "ed7b8da726030a75"; method[unlink] = "the method fuchsia.io/Directory.Unlink"
    method["3b05ea38a696433d"] = "the method fuchsia.io/Node.GetAttributes"
    list = "14916b2a59ccb005"; method[list] = "the method fuchsia.io/Directory.ReadDirents"
    rewind = "594705f815b1c77d"; method[rewind] = "the method fuchsia.io/Directory.Rewind"
    get_token = "0bea77552dcc1d2c"; method[get_token] = "the method fuchsia.io/Directory.GetToken"
    rename = "de28993b72e76070"; method[rename] = "the method fuchsia.io/Directory.Rename"
    link = "4681a69845b4aa03"; method[link] = "the method fuchsia.io/Directory.Link"
    watch = "79d851a5b930d372"; method[watch] = "the method fuchsia.io/Directory.Watch"
    close_it = "58b49c8443d2f574"; method[close_it] = "the method fuchsia.unknown/Closeable.Close"
    told = "0c510ad86705b45c"; method[told] = "the event fuchsia.io/Node.OnRepresentation"
    epitaph = "ffffffffffffffff"; method[epitaph] = "an epitaph: the last message of its endpoint"
    split("node directory file", representation, " ")
    happenings = split("DELETED ADDED REMOVED EXISTING IDLE", happening, " ")
    type["04"] = "a directory"; type["08"] = "a file"; type["10"] = "a service"
    status["00000000"] = "OK"; status["feffffff"] = "NOT_SUPPORTED"
    status["f6ffffff"] = "INVALID_ARGS"; status["f5ffffff"] = "BAD_HANDLE"
    status["f2ffffff"] = "OUT_OF_RANGE"; status["e8ffffff"] = "PEER_CLOSED"
    status["e7ffffff"] = "NOT_FOUND"; status["e2ffffff"] = "ACCESS_DENIED"
    for (i = 0; i < 256; i++) value[sprintf("%02x", i)] = i
    while (name != "request" && (getline endpoint < watchers) > 0) is_watcher[endpoint] = 1
    count = 0
}

{ for (i = 1; i <= NF; i++) byte[count++] = $i }

END {
    place = 0
    for (number = from == "" ? 1 : from; place < count; number++) frame(number)
}

# The next n bytes as digits; the place goes on behind them.
function take(n,    digits) {
    for (digits = ""; n > 0 && place < count; n--) digits = digits byte[place++]
    return digits
}

# What digits, the low byte first, stand for; exact below 2^53.
function number_of(digits,    i, sum) {
    for (i = length(digits) - 1; i > 0; i -= 2) sum = 256 * sum + value[substr(digits, i, 2)]
    return sum + 0
}

function line(digits, meaning) {
    printf "    %-34s %s\n", digits, meaning
}

function status_of(digits) {
    return "status " (number_of(digits) ? number_of(digits) - 4294967296 : 0) \
        (digits in status ? ", " status[digits] : "")
}

function frame(number,    endpoint, kind, handles, size, digits) {
    printf "%s %d\n", name, number
    digits = take(4); endpoint = number_of(digits)
    line(digits, (byte[place] == "03" ? "server " : "endpoint ") endpoint)
    digits = take(1); kind = number_of(digits)
    line(digits, "kind " kind (kind in kinds ? ", " kinds[kind] : ""))
    digits = take(1); handles = number_of(digits); line(digits, handles (handles == 1 ? " handle" : " handles"))
    line(take(2), "always zero")
    digits = take(4); size = number_of(digits); line(digits, size " bytes follow")
    for (; handles > 0; handles--) { digits = take(4); carried = number_of(digits); line(digits, handle_of(carried)) }
    if (endpoint in is_watcher) { events(place + size); return }
    if (kind == 5 && size == 4) { digits = take(4); line(digits, status_of(digits)); return }
    if (kind == 3 && size == 4) { digits = take(4); line(digits, servings(number_of(digits))); return }
    if (kind != 1 || size < 16) { if (size > 0) line(take(size), "bytes"); return }
    message(place + size)
}

# Tokens have the numbers from 2^31 on.
function handle_of(n) {
    return n < 2147483648 ? "handle " n : sprintf("token %.0f", n)
}

function servings(n) {
    return "at most " n (n == 1 ? " serving" : " servings")
}

function message(end,    digits, ordinal) {
    digits = take(4)
    line(digits, "txid " number_of(digits))
    digits = take(4)
    line(digits, "wire format 2, " (value[substr(digits, 5, 2)] >= 128 ? "flexible" : "strict"))
    ordinal = take(8)
    line(ordinal, ordinal in method ? method[ordinal] : "an ordinal of no method that is served here")
    if (ordinal == epitaph && end - place == 8) {
        digits = take(4); line(digits, status_of(digits))
        line(take(4), "padding")
    } else if ((ordinal == read || ordinal == list) && end - place == 8) {
        digits = take(8); line(digits, "asks for at most " number_of(digits) " bytes")
    } else if (ordinal == open && end - place >= 48) {
        opening(end)
    } else if (ordinal == clone && end - place == 8) {
        line(take(4), "the handle is there")
        line(take(4), "padding")
    } else if (ordinal == told && end - place == 32) {
        event()
    } else if ((ordinal == rename || ordinal == link) && end - place >= 40) {
        moving(end)
    } else if (ordinal == unlink && end - place >= 32) {
        unlinking(end)
    } else if (ordinal == watch && end - place == 16) {
        watching()
    } else if (ordinal == list && end - place >= 24) {
        listing(end)
    } else if (ordinal == get_token && end - place == 8) {
        digits = take(4); line(digits, status_of(digits))
        digits = take(4); line(digits, number_of(digits) ? "the token is there" : "no token")
    } else if ((ordinal == link || ordinal == rewind || ordinal == watch) && end - place == 8) {
        digits = take(4); line(digits, status_of(digits))
        line(take(4), "padding")
    } else if ((ordinal == read || ordinal == close_it || ordinal == rename || ordinal == unlink) && end - place >= 16) {
        reply(end)
    }
    if (place < end) line(take(end - place), "bytes")
}

function opening(end,    digits, size) {
    digits = take(8); size = number_of(digits); line(digits, "a path of " size " bytes")
    line(take(8), "which is there")
    line(take(8), "flags")
    line(take(8), "no options")
    line(take(8), "in a table that is there")
    line(take(4), "the handle is there")
    line(take(4), "padding")
    text(size)
    if (place < end) line(take(end - place), "padding")
}

# A name, a token for the directory that it goes to, and its name there.
function moving(end,    digits, from, to) {
    digits = take(8); from = number_of(digits); line(digits, "a name of " counted(from))
    line(take(8), "which is there")
    line(take(4), "the token is there")
    line(take(4), "padding")
    digits = take(8); to = number_of(digits); line(digits, "a name of " counted(to))
    line(take(8), "which is there")
    text(from); padding_behind(from)
    text(to); padding_behind(to)
}

# A name, and options that may have flags.
function unlinking(end,    digits, size, options) {
    digits = take(8); size = number_of(digits); line(digits, "a name of " counted(size))
    line(take(8), "which is there")
    digits = take(8); options = number_of(digits); line(digits, options ? options " option" : "no options")
    line(take(8), "in a table that is there")
    text(size); padding_behind(size)
    if (options != 1 || end - place != 16) return
    digits = take(4); line(digits, "the option has " number_of(digits) " bytes")
    line(take(4), "no handle; the value stands behind the envelope")
    digits = take(8); line(digits, number_of(digits) == 1 ? "flags: it must be a directory" : "flags")
}

# The events that a watcher asks for.
function watching(    digits, mask, i, asked) {
    digits = take(4); mask = number_of(digits)
    for (i = 1; i <= happenings; i++) if (int(mask / 2 ^ (i - 1)) % 2) asked = asked (asked == "" ? ": " : ", ") happening[i]
    line(digits, "mask " mask asked)
    digits = take(4); line(digits, number_of(digits) ? "options" : "no options")
    line(take(4), "the handle is there")
    line(take(4), "padding")
    print carried >> watchers
}

# What a watcher is told: events one behind another.
function events(end,    digits, what, size) {
    while (place < end) {
        digits = take(1); what = number_of(digits)
        line(digits, what < happenings ? happening[what + 1] : "event " what)
        digits = take(1); size = number_of(digits); line(digits, size ? "a name of " counted(size) : "no name")
        text(size)
    }
}

function counted(size) {
    return size (size == 1 ? " byte" : " bytes")
}

function padding_behind(size) {
    if (size % 8 > 0) line(take(8 - size % 8), "padding")
}

# A status, and entries one behind another.
function listing(end,    digits, size, last) {
    digits = take(4); line(digits, status_of(digits))
    line(take(4), "padding")
    digits = take(8); size = number_of(digits); line(digits, "a vector of " size " bytes")
    line(take(8), "which is there")
    for (last = place + size; place < last;) entry()
    padding_behind(size)
}

function entry(    digits, size) {
    digits = take(8); line(digits, "the node with the number " number_of(digits))
    digits = take(1); size = number_of(digits); line(digits, "a name of " counted(size))
    digits = take(1); line(digits, digits in type ? type[digits] : "type " number_of(digits))
    text(size)
}

function event(    digits, branch) {
    digits = take(8); branch = number_of(digits)
    line(digits, "branch " branch (branch in representation ? ": a " representation[branch] : ""))
    digits = take(4); line(digits, "the value has " number_of(digits) " bytes")
    line(take(4), "no handle; the value stands behind the envelope")
    line(take(8), "an empty table")
    line(take(8), "which is there")
}

function reply(end,    digits, size) {
    digits = take(8)
    if (number_of(digits) != 1) {
        line(digits, "branch " number_of(digits) ": it failed")
        digits = take(4); line(digits, status_of(digits))
        line(take(4), "no handle; the value stands in the envelope")
        return
    }
    line(digits, "branch 1: it succeeded")
    if (end - place == 8) {
        line(take(4), "an empty value")
        line(take(4), "no handle; the value stands in the envelope")
        return
    }
    digits = take(4); line(digits, "the value has " number_of(digits) " bytes")
    line(take(4), "no handle; the value stands behind the envelope")
    digits = take(8); size = number_of(digits); line(digits, "a vector of " size " bytes")
    line(take(8), "which is there")
    text(size)
    if (place < end) line(take(end - place), "padding")
}

# The content, sixteen bytes a line.
function text(size,    n, digits, i, shown) {
    for (; size > 0; size -= n) {
        n = size < 16 ? size : 16
        digits = take(n)
        shown = ""
        for (i = 1; i < length(digits); i += 2) {
            code = value[substr(digits, i, 2)]
            shown = shown (code >= 32 && code < 127 ? sprintf("%c", code) : ".")
        }
        line(digits, "\"" shown "\"")
    }
}
