#!/usr/bin/env bash
# Checks the trees of examples/trees, and prints what it says of each. The first argument is the
# program, build/vfs if there is none.
set -eu
cd "$(dirname "$0")/.."
program=${1:-build/vfs}
for tree in examples/trees/*.toml; do
    echo "vfs check $tree"
    echo "  $("$program" check "$tree" 2>&1)"
done
