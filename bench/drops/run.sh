#!/bin/sh
# Builds a program over brick_store in a copy of the tree, and runs it: how long a store takes to drop 65,536 stripes of one group, alone and
# beside as many kept ones of each of seven others, three times in turn.
# Usage: bench/drops/run.sh [FOLDER], where FOLDER is made and kept; a temporary one if left out.
set -eu
here=$(cd "$(dirname "$0")" && pwd)
top=$(cd "$here/../.." && pwd)
work=${1:-$(mktemp -d)}
crate="$work/crates/drops_bench"
mkdir -p "$crate/src"
for name in fab_base fab_disk frame_store stamp_store version_log fields brick_state brick_store; do
    cp -r "$top/crates/$name" "$work/crates/"
done
cp "$here/main.rt.txt" "$crate/src/main.rt"
grep -E '^(fab_base|fab_disk|frame_store|stamp_store|version_log|fields|brick_state|brick_store):' "$top/crates.txt" > "$work/crates.txt"
echo 'drops_bench: fab_base fab_disk frame_store stamp_store version_log brick_state brick_store' >> "$work/crates.txt"
cd "$crate"
rt run > "$work/log" 2>&1 || { cat "$work/log"; exit 1; }
exec out/drops_bench
