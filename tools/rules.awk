# From crates.txt the rules by which make proves the libraries below `programs` and builds these. Of the longest chain of
# crates, measured in lines, each gets so many `jobs`; any other gets one, and is nice to those on longer chains. To be
# a crate counts as 190 lines (`own`), which is what a check costs before its first function.

BEGIN { own = 190 }

{ sub(/#.*/, "") }

index($0, ":") {
    name = $1
    sub(/:.*/, "", name)
    uses[name] = substr($0, index($0, ":") + 1)
}

END {
    tops = split(programs, top, " ")
    for (i = 1; i <= tops; i++) {
        is_program[top[i]] = 1
        visit(top[i])
    }
    for (i = 1; i <= count; i++) chain_below(order[i])
    for (i = 1; i <= tops; i++) if (below[top[i]] > longest) longest = below[top[i]]
    for (i = count; i >= 1; i--) chain_above(order[i])
    printf "all:"
    for (i = 1; i <= count; i++) printf " %s", target(furthest())
    print ""
    for (i = 1; i <= count; i++) rule(order[i])
}

# Numbers the crates from the lowest on.
function visit(name,    parts, n, i) {
    if (!(name in uses) || name in seen) return
    seen[name] = 1
    n = split(uses[name], parts, " ")
    for (i = 1; i <= n; i++) visit(parts[i])
    order[++count] = name
    lines[name] = own + first_line("cat crates/" name "/src/*.rt | wc -l")
}

# The lines of the longest chain that ends with a crate, and of the longest that begins with it.
function chain_below(name,    parts, n, i) {
    n = split(uses[name], parts, " ")
    for (i = 1; i <= n; i++) if (below[parts[i]] > below[name]) below[name] = below[parts[i]]
    below[name] += lines[name]
}

function chain_above(name,    parts, n, i) {
    above[name] += lines[name]
    n = split(uses[name], parts, " ")
    for (i = 1; i <= n; i++) if (above[name] > above[parts[i]]) above[parts[i]] = above[name]
}

# The next crate in order of the chains that begin with them.
function furthest(    i, found) {
    for (i = 1; i <= count; i++) if (!(order[i] in listed) && (!found || above[order[i]] > above[found])) found = order[i]
    listed[found] = 1
    return found
}

function target(name) {
    return name in is_program ? "build/" name : "crates/" name "/out/rlib/" name ".rlib/format"
}

function rule(name,    parts, n, i, share) {
    n = split(uses[name], parts, " ")
    printf "%s: crates.txt %s", target(name), first_line("find crates/" name "/src crates/" name "/specs crates/" name "/proofs 2> /dev/null | sort | tr '\\n' ' '")
    for (i = 1; i <= n; i++) if (parts[i] in uses) printf " %s", target(parts[i])
    share = (below[name] + above[name] - lines[name]) / longest
    printf "\n\t@tools/prove.sh %s %d %d%s\n", name, share < 1 ? 1 : jobs, 60 * (1 - share), uses[name]
}

function first_line(command,    line) {
    command | getline line
    close(command)
    return line
}
