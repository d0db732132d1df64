# The two halves of a recorder over a session in mode given (`record.sh`), over bytes in hexadecimal, two digits a field.
#
# -v half=in: the steps of a session, a line each, become the frames that are sent: `in BYTES` is a frame, `pick ENDPOINT` a Pick, and
# `turns ENDPOINT` a Turn of one entry for each server, for what a Pick can't serve, a hang-up on this endpoint. Behind each step stands
# a Turn of a server that isn't there: it is refused, which shows in the output where that of the step ends.
#
# -v half=out -v steps=FILE: the output of these frames becomes the records, a line each, with the number of the step behind it.

function word(n) { return sprintf("%02x%02x%02x%02x", n % 256, int(n / 256) % 256, int(n / 65536) % 256, int(n / 16777216)) }
function turn(server, count) { return word(server) "03000000" "04000000" word(count) }

BEGIN { nobody = 1073741823; mark = word(nobody) "05000000" "04000000" "f5ffffff" }

half == "in" && $1 == "in" { print $2 turn(nobody, 1) }
half == "in" && $1 == "pick" { print word($2) "0400000000000000" turn(nobody, 1) }
half == "in" && $1 == "turns" {
    for (server = 0; server < servers; server++) printf "%s", turn(server, 1)
    print turn(nobody, 1)
}

half == "out" { for (i = 1; i <= NF; i++) byte[count++] = $i }

function number(at,    i, sum) {
    for (i = 3; i >= 0; i--) sum = 256 * sum + digits[byte[at + i]]
    return sum
}

# A record, beside the number of its step, and those of the frames that went out then.
function record(text, out) { printf "%s # %d\n%s", text, number_of_step, out }

# The frame at a place, which stands behind it then.
function frame(    size, text) {
    size = 12 + 4 * digits[byte[place + 5]] + number(place + 8)
    for (text = ""; size > 0; size--) text = text byte[place++]
    return text
}

END {
    if (half != "out") exit
    for (i = 0; i < 256; i++) digits[sprintf("%02x", i)] = i
    while ((getline step < steps) > 0) {
        split(step, said, " ")
        number_of_step++
        out = ""
        first = ""
        while (place < count) {
            next_frame = frame()
            if (next_frame == mark) break
            if (first == "") first = next_frame
            out = out "02" next_frame " # " number_of_step "\n"
        }
        # A Pick that is refused served nothing, and isn't recorded.
        if (said[1] == "in") record("00" said[2], out)
        else if (substr(first, 9, 2) != "05") record("01" word(said[2]), out)
    }
    if (place < count) print "more is written at the end"
    print "03"
}
