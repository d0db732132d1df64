# Writes a text out that says something once for many times: `<COUNT*PIECE>` stands for so many PIECEs one behind another, or
# for so many lines where it is a line. In a PIECE `{N}` stands for the number N in the first, N + 1 in the second, and so on;
# `{low N}` for the four bytes of that number, the low one first, and `{digits N}` for the bytes of its decimal digits, both in
# hexadecimal digits.

function low(number, i, text) {
    text = ""
    for (i = 0; i < 4; i++) {
        text = text sprintf("%02x", number % 256)
        number = int(number / 256)
    }
    return text
}

function digits(number, i, text) {
    text = ""
    for (i = 1; i <= length(number); i++)
        text = text "3" substr(number, i, 1)
    return text
}

# The number of a round, in the form that the braces say.
function spelled(said, round, words, count, number) {
    count = split(said, words, " ")
    number = sprintf("%.0f", words[count] + round)
    if (count == 1) return number
    return words[1] == "low" ? low(number) : digits(number)
}

# A piece with its numbers of a round.
function numbered(piece, round, text) {
    text = ""
    while (match(piece, /\{(low |digits )?[0-9]+\}/)) {
        text = text substr(piece, 1, RSTART - 1) spelled(substr(piece, RSTART + 1, RLENGTH - 2), round)
        piece = substr(piece, RSTART + RLENGTH)
    }
    return text piece
}

{ text = text $0 "\n" }

END {
    while (match(text, /<[0-9]+\*[^>]*>/)) {
        front = substr(text, 1, RSTART - 1)
        said = substr(text, RSTART + 1, RLENGTH - 2)
        text = substr(text, RSTART + RLENGTH)
        printf "%s", front
        is_line = front ~ /\n$/ && text ~ /^\n/
        star = index(said, "*")
        for (round = 0; round < substr(said, 1, star - 1) + 0; round++) {
            if (is_line && round > 0) print ""
            printf "%s", numbered(substr(said, star + 1), round)
        }
    }
    printf "%s", text
}
