#!/usr/bin/env bash
# conform.sh VFS FRAMES: holds `vfs serve` against the sessions of the examples, by the kit for other servers, all of which must hold.
# Then the same with a bug planted, a filter that changes one byte of one answer, which the kit must name.
set -u
cd "$(dirname "$0")/.." || exit 1
export VFS=$1 FRAMES=$2
work=$(mktemp -d) || exit 1
trap 'rm -rf "$work"' EXIT
tools/conform.sh "$VFS" serve || exit 1

cat > "$work/planted" <<'END'
#!/usr/bin/env bash
set -o pipefail
"$VFS" serve "$@" | LC_ALL=C sed -z 's/remote/remofe/'
END
chmod +x "$work/planted"
cat > "$work/wanted" <<'END'
DIFFERS: onward: what goes on has the rest of the path, the flags and the new endpoint, over examples/cases/onward.toml, in mode auto
  line 1 of what comes back, from column 90 on
  wanted: 2 message Read .. 00000000ffffffffffffffff72656d6f74650000
  got:    2 message Read .. 00000000ffffffffffffffff72656d6f66650000
onward: 2 hold
2 hold, 1 differ
END
if ONLY=onward tools/conform.sh "$work/planted" > "$work/said"; then
    echo "FAILED: a planted bug isn't found"
    exit 1
fi
if ! diff "$work/wanted" "$work/said"; then
    echo "FAILED: a planted bug isn't named"
    exit 1
fi
echo "a planted bug is named"
