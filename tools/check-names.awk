# The names in backticks of the documents: see check-names.sh, which makes the lists that are read here.

BEGIN {
    while ((getline line < (work "/paths")) > 0) add_path(line)
    while ((getline line < (work "/words")) > 0) word[line] = 1
    while ((getline line < (work "/targets")) > 0) known[line] = 1
    while ((getline line < (work "/contracts")) > 0) {
        split(line, part, "\t")
        call[part[2]] = 1
        clauses_of[part[1], part[2]] = clauses_of[part[1], part[2]] part[3]
        words_of[part[1], part[2]] = words_of[part[1], part[2]] part[4]
    }
    while ((getline line < "crates.txt") > 0) {
        sub(/#.*/, "", line)
        gsub(/:/, " ", line)
        count = split(line, part, " ")
        for (i = 1; i <= count; i++) word[part[i]] = 1
    }
    # Words of the outside, and what is made.
    outside("make|rt|bash|awk|od|rt ci|rt check|rt version|--help|--version|build/vfs|frames /dev/stdin", "|")
}

FNR == 1 { crate = ""; is_fenced = 0 }
/^```/ { is_fenced = !is_fenced; next }
is_fenced || /^    / { next }
/^## / { crate = $2; gsub(/`/, "", crate) }

FILENAME == "docs/PROVED.md" && /^\|/ && !/^\| Claim/ && !/^\|-/ { check_row(); next }

{
    count = split($0, part, "`")
    for (i = 2; i <= count; i += 2) check(part[i], is_there(part[i]), "is not in the tree")
}

END {
    print passed + 0 " passed, " failed + 0 " failed"
    exit failed > 0
}

function outside(words, by,    part, count, i) {
    count = split(words, part, by)
    for (i = 1; i <= count; i++) known[part[i]] = 1
}

# A path is known as it is, and below its crate, with and without the ending of a source.
function add_path(path,    short) {
    known[path] = known[path "/"] = 1
    if (path !~ /^crates\/./) return
    for (short = path; index(short, "/"); ) {
        sub(/^[^\/]*\//, "", short)
        known[short] = known[short "/"] = 1
        if (short ~ /\.(antt|rt)$/) known[substr(short, 1, match(short, /\.[a-z]*$/) - 1)] = 1
        if (short ~ /^(specs|src|proofs)\//) break
    }
}

function check(name, is_right, why) {
    if (is_right) { passed++; return }
    failed++
    print FILENAME ":" FNR ": `" name "` " why
}

function is_there(name,    part, count, i) {
    if (name in known) return 1
    # A pipe, program by program.
    count = split(name, part, / \\\| /)
    for (i = 1; count > 1 && i <= count; i++) if (!is_there(part[i])) return 0
    if (count > 1) return 1
    if (name ~ /^(docs|examples|tools|crates|specs|src|proofs|must-fail|\.ci)\//) return 0
    if (name ~ /^[A-Z][A-Za-z]*::[a-z]/) return name in call
    if (name ~ /^make /) return 0
    if (name ~ /^[A-Z]+(_[A-Z]+)+$/) return name in word || variant(name) in word
    # Numbers and bytes, sets of rights, and parts of paths.
    if (name ~ /^[-0-9a-f ]*$/ || name ~ /^c?r?w?x?g?u?e?t?m?$/) return 1
    sub(/^vfs /, "", name)
    count = split(name, part, /[^A-Za-z0-9_]+/)
    for (i = 1; i <= count; i++) if (part[i] ~ /^[A-Za-z_]../ && !(part[i] in word)) return 0
    return 1
}

# A status or a flag as the code has it: NOT_FOUND is NotFound.
function variant(name,    part, count, i, made) {
    count = split(name, part, "_")
    for (i = 1; i <= count; i++) made = made substr(part[i], 1, 1) tolower(substr(part[i], 2))
    return made
}

# A row: the claim, the calls, and the clauses, each of which each call has: by its name, or in brackets by
# a word of the contract.
function check_row(    cell, calls, clauses, n, m, i, j, has) {
    split($0, cell, /\|/)
    n = split(cell[3], calls, "`")
    m = split(cell[4], clauses, "`")
    if (n < 3 || m < 3) check($0, 0, "is a row without a call or a clause")
    for (i = 2; i <= n; i += 2) {
        check(calls[i], (crate, calls[i]) in words_of, "is no call of " crate)
        if (!((crate, calls[i]) in words_of)) continue
        for (j = 2; j <= m; j += 2) {
            has = clauses[j - 1] ~ /\($/ ? words_of[crate, calls[i]] : clauses_of[crate, calls[i]]
            check(clauses[j], index(has, " " clauses[j] " ") > 0, "is no clause of " calls[i])
        }
    }
}
