#!/bin/sh
# Builds the benchmark of the erasure code in a copy of its crates, and runs it on one core beside plain Rust and ISA-L,
# TIMES times in turn. Prints the best of each line, in 10^9 bytes of data a second.
# Usage: bench/code/run.sh [FOLDER [TIMES]], where FOLDER is made and kept; a temporary one if left out.
set -eu
here=$(cd "$(dirname "$0")" && pwd)
top=$(cd "$here/../.." && pwd)
work=${1:-$(mktemp -d)}
times=${2:-5}
crate="$work/crates/code_bench"
mkdir -p "$crate/src" "$crate/proofs/numbers" "$work/lines"
for name in gf_field gf_lanes rs_code; do
    cp -r "$top/crates/$name" "$work/crates/"
done
cp "$here/main.rt.txt" "$crate/src/main.rt"
cp "$here/numbers.antt.txt" "$crate/proofs/numbers/Invariants.antt"
cat > "$work/crates.txt" <<'LIST'
gf_field:
gf_lanes: gf_field
rs_code: gf_field gf_lanes
code_bench: gf_lanes rs_code
LIST
cd "$crate"
rt run --cpu x86-64-v3 > "$work/log" 2>&1 || { cat "$work/log"; exit 1; }
cp out/code_bench "$work/ours-v3"
rt run > "$work/log" 2>&1 || { cat "$work/log"; exit 1; }
cp out/code_bench "$work/ours"
rustc -C opt-level=3 -o "$work/plain" "$here/plain.rs"
programs="ours ours-v3 plain"
if cc -O3 -o "$work/isal" "$here/isal.c" -lisal 2> "$work/isal.log"; then
    programs="$programs isal-sse isal-best"
else
    echo "ISA-L is not installed, and left out"
fi

# On the last core, and before all other work where that is allowed.
one_core="taskset -c $(($(nproc) - 1))"
if $one_core chrt -f 20 true 2> /dev/null; then
    one_core="$one_core chrt -f 20"
fi
for _ in $(seq "$times"); do
    for program in $programs; do
        case $program in
        isal-*) $one_core "$work/isal" "${program#isal-}" ;;
        *) $one_core "$work/$program" ;;
        esac >> "$work/lines/$program"
    done
done
cd "$work/lines"
awk '
    /stripes$/ { section = $0 "; "; next }
    /^mul_add/ { section = "" }
    {
        split($0, part, ": ")
        line = section part[1]
        if (!((FILENAME, line) in best)) order[++count] = FILENAME SUBSEP line
        if (part[2] + 0 > best[FILENAME, line]) best[FILENAME, line] = part[2] + 0
        sub(/.*\(/, "(", part[2])
        sums[FILENAME, line] = part[2]
    }
    END {
        for (i = 1; i <= count; i++) {
            split(order[i], key, SUBSEP)
            printf "%-10s %-60s %6.2f %s\n", key[1], key[2], best[order[i]] / 1e9, sums[order[i]]
        }
    }
' $programs
