#!/usr/bin/env bash
# build.sh PROGRAM..: proves and builds these programs, each as build/PROGRAM.
#
# Each crate that one of them stands on is proved once, over what the crates below it state. Those on the longest chain of
# crates go first, each with half of the processors, and the others fill what they leave. What is proved lies in the
# out/ of its crate, so that a build which was stopped goes on, and a later one proves what has changed and what stands
# above it.
set -eu
cd "$(dirname "$0")/.."
export kit started at_once
kit=$(dirname "$(rt doc)")
started=$(date +%s)
processors=$(nproc)
by_memory=$(awk '/^MemAvailable:/ { print int($2 / 3000000) + 1 }' /proc/meminfo)
at_once=$((by_memory < processors + 1 ? by_memory : processors + 1))
mkdir -p build
awk -v programs="$*" -v jobs=$(((processors + 1) / 2)) -f tools/rules.awk crates.txt > build/rules.mk
making=(env -u MAKEFLAGS -u MFLAGS make -s -f build/rules.mk)
if "${making[@]}" -q; then exit 0; fi
echo "proving what $(printf 'build/%s ' "$@")stands on; what the prover says of a crate is in build/CRATE.log"
"${making[@]}" -j "$at_once"
