# For scripts that play the sessions of the examples: the cases of a file, the files of trees, and the tour. Who sources it stands at
# the top of the project, and has a folder of its own, whose name is in `work`.

# Splits a file of cases into N.given and N.wanted in the folder, and prints a line `N | TREES | NAME` for each.
cases_of() { # FILE
    awk -f tools/repeats.awk "$1" | awk -v work="$work" -v kind="${1##*.}" -f tools/cases.awk
}

# The file of a tree: of the cases, of the other examples, or of those that are played over objects in memory.
tree_of() { # NAME
    local folder
    for folder in examples/cases examples/trees crates/io_conformance/data/trees; do
        if [ -e "$folder/$1.toml" ]; then echo "$folder/$1.toml"; return; fi
    done
}

# The tour: each script of examples/scripts, and the tree over which it is played to the transcript beside it.
declare -A tour=(
    [reading]=small [writing]=small [directories]=small [watching]=small [refusals]=small
    [rights]=every_kind [mounts]=mounted_pair [turns]=mounted_pair
)
