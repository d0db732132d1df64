# Lists the functions of .rt files with what their contracts name. For each a line with the crate, the
# function (as TYPE::NAME in an impl or a trait), the names of its clauses, and all words of its contract.

FNR == 1 { finish(); split(FILENAME, path, "/"); crate = path[2]; type = "" }

/^(pub )?(impl|trait)[ <]/ { type = type_of($0) }
/^}/ { type = "" }

/^ *(pub(\([a-z]+\))? )?(const )?fn [a-z]/ {
    finish()
    name = $0
    sub(/^.*fn /, "", name)
    sub(/[^a-z0-9_].*/, "", name)
    if (type != "") name = type "::" name
    clauses = text = ""
    is_open = 1
}

is_open {
    line = $0
    sub(/ *\/\/.*/, "", line)
    if (line ~ /^ *ensures [a-z_0-9]+ \{/) {
        clause = line
        sub(/^ *ensures /, "", clause)
        sub(/ .*/, "", clause)
        clauses = clauses " " clause
    }
    text = text " " line
    if (line ~ /^ *\{\}?$/ || line ~ /^ *(pub )?(const )?fn .*\{$/ || line ~ /^ *(ensures|requires|fn) .*;$/) finish()
}

END { finish() }

function finish() {
    if (is_open) {
        gsub(/[^A-Za-z0-9_]+/, " ", text)
        print crate "\t" name "\t" clauses " \t" text " "
    }
    is_open = 0
}

# The type of an impl or a trait: without its parameters, and behind `for` where there is one.
function type_of(line) {
    sub(/^pub /, "", line)
    sub(/ *\{.*/, "", line)
    while (line ~ /<[^<>]*>/) sub(/<[^<>]*>/, "", line)
    sub(/^(impl|trait) */, "", line)
    sub(/^.* for /, "", line)
    sub(/[^A-Za-z0-9_].*/, "", line)
    return line
}
