#!/usr/bin/env bash
# prove.sh NAME JOBS NICENESS USE..: proves a crate over the libraries that it uses, and leaves its library in its out/,
# or of a program build/NAME. It takes so many processes, or more where fewer crates are proved as it begins than could
# be at once. `build.sh` has make call it, and gives the toolchain's folder, when it began, and how many are proved at once.
set -eu
shopt -s nullglob
name=$1 jobs=$2 niceness=$3
shift 3
top=$PWD
at_work=$(wc -w < "/proc/$PPID/task/$PPID/children")
free=$((at_once - at_work))
if [ "$jobs" -lt "$free" ]; then jobs=$free; fi
log=$top/build/$name.log
words=(--crate-name "$name" --extern "std=$kit/rlibs/std.rlib" -L "dependency=$kit/rlibs" --links "$name=")
for use; do
    if [ -d "crates/$use" ]; then words+=(--extern "$use=$top/crates/$use/out/rlib/$use.rlib"); else words+=(--extern "$use=$kit/rlibs/$use.rlib"); fi
done
for below in crates/*/out/rlib; do words+=(-L "dependency=$top/$below"); done
words+=(--antt-project "$kit/rattle/logic/antt-project.json" --logic-built "$kit/logic_built" --jobs "$jobs")

build() { # ROOT WORD..
    if (cd "crates/$name" && nice -n "$niceness" "$kit/bin/rattle" build "src/$1" "${words[@]}" "${@:2}") > "$log" 2>&1; then return; fi
    tail -n 40 "$log"
    echo "$name was not proved; what the prover says is in build/$name.log" >&2
    exit 1
}

if [ -e "crates/$name/src/main.rt" ]; then
    build main.rt --toolchain "$kit/toolchain" --backend llvm -o "$top/build/$name.o"
    "$kit/bin/rattle-link" --target x86_64-unknown-linux-gnu --toolchain "$kit/toolchain" \
        -o "build/$name" "build/$name.o" "$kit/c/libos_c.a" "$kit/c/liblibc_c.a"
else
    rm -rf "crates/$name/out/rlib"
    mkdir -p "crates/$name/out/rlib"
    build lib.rt --statements -o "$top/crates/$name/out/rlib/$name.rlib"
fi
echo "  $name proved, $(($(date +%s) - started)) s"
