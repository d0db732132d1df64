#!/usr/bin/env bash
# map.sh [CRATE ..]: prints where each definition stands: for each crate, lowest first, what it is, and of each
# file of its specs/ what it defines, as their heads say it.
set -eu
cd "$(dirname "$0")/.."
crates=("$@")
if [ ${#crates[@]} -eq 0 ]; then mapfile -t crates < <(sed -n 's/^\([a-z_]*\):.*/\1/p' crates.txt); fi
# The comment at the head of a file, as one line.
head_of() { awk '!/^(\/\/|--)/ { exit } { sub(/^(\/\/!?|--) ?/, ""); printf "%s%s", (NR > 1 ? " " : ""), $0 }' "$1"; }
for crate in "${crates[@]}"; do
    root=crates/$crate/src/lib.rt
    [ -f "$root" ] || root=crates/$crate/src/main.rt
    printf '%s: %s\n' "$crate" "$(head_of "$root")"
    sed -n 's/^pub mod \(.*\)/\1/p' "crates/$crate/specs/Lib.antt" 2> /dev/null | while read -r module; do
        printf '    %-14s %s\n' "$module" "$(head_of "crates/$crate/specs/$module.antt")"
    done
done
