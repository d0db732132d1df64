# Where two texts differ first: `awk -f differs.awk WANTED GOT` prints the number of the first line that isn't the same, and both lines:
# of long ones the first three words, and what stands from some columns before the first difference on. Of the same texts it says nothing.

FILENAME == ARGV[1] { wanted[++count] = $0; next }
!found && !(FNR in wanted) { tell(FNR, "no more lines", $0) }
!found && wanted[FNR] != $0 { tell(FNR, wanted[FNR], $0) }
{ seen = FNR }

END { if (!found && seen < count) tell(seen + 1, wanted[seen + 1], "no more lines") }

function tell(line, first, second,    from) {
    found = 1
    for (from = 1; substr(first, from, 1) == substr(second, from, 1); from++);
    from = from > 80 ? from - 32 : 1
    print "  line " line " of what comes back" (from > 1 ? ", from column " from " on" : "")
    print "  wanted: " shown(first, from)
    print "  got:    " shown(second, from)
}

function shown(text, from,    words) {
    if (from == 1) return substr(text, 1, 160)
    split(text, words, " ")
    return words[1] " " words[2] " " words[3] " .. " substr(text, from, 120)
}
