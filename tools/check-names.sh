#!/usr/bin/env bash
# check-names.sh: checks that what README.md and docs/ name in backticks stands in the tree, and that
# each row of docs/PROVED.md names calls of its crate and clauses of theirs. A name that doesn't is told
# with its file and line; the last line counts.
set -u
cd "$(dirname "$0")/.." || exit 1
work=$(mktemp -d) || exit 1
trap 'rm -rf "$work"' EXIT

# All files and folders but what is built.
find . \( -name .git -o -name out -o -name build \) -prune -o -print | sed 's,^\./,,' > "$work/paths"
# The words of the code and of the definitions, without comments.
grep -E '^crates/.*\.(rt|antt)$' "$work/paths" | xargs sed -e 's,//.*,,' -e 's/^ *--.*//' |
    tr -cs 'A-Za-z0-9_' '\n' | sort -u > "$work/words"
awk -f tools/contracts.awk crates/*/src/*.rt crates/*/src/*/*.rt > "$work/contracts"
sed -n 's/^\([a-z][a-z-]*\):.*/make \1/p' Makefile > "$work/targets"

awk -v work="$work" -f tools/check-names.awk README.md docs/*.md
