# Splits a file of cases, once `repeats.awk` has written it out, into a file N.given and a file N.wanted for each in the folder
# `work`, and prints a line `N | TREES | NAME` for each.
#
# A case is a line `== NAME`, what is given, a line `--`, and what is wanted. Of sessions a line `tree NAME..` in front of cases
# names the trees over which each of them is played. In front of cases, and in what is wanted, empty lines and those that begin
# with `#` say nothing. What is given has no line end behind its last line.

function begin(said) {
    name = said
    part = "given"
    number++
    given = work "/" number ".given"
    wanted = work "/" number ".wanted"
    printf "" > given
    printf "" > wanted
    between = ""
}

function finish() {
    if (part == "") return
    close(given)
    close(wanted)
    print number " | " trees " | " name
    part = ""
}

/^== / { finish(); begin(substr($0, 4)); next }
part != "given" && kind == "sessions" && /^tree / { finish(); trees = substr($0, 6); next }
part == "given" && $0 == "--" { part = "wanted"; next }
part == "given" { printf "%s%s", between, $0 > given; between = "\n" }
part == "wanted" && !/^(#|$)/ { print > wanted }

END { finish() }
