#!/bin/sh
# Instructions of each step of the two clause stores, by callgrind, at rooms of 64, 512 and 4,096: run.sh [TEMP]
set -e
here=$(cd "$(dirname "$0")" && pwd)
root=$(cd "$here/../.." && pwd)
temp=${1:-$(mktemp -d)}
below="network clause image intake rules rings slots store owned slotted scanned indexed"
mkdir -p "$temp/crates/bench_store/src"
: > "$temp/crates.txt"
for crate in $below; do
    mkdir -p "$temp/crates/$crate"
    cp -r "$root/crates/$crate/src" "$root/crates/$crate/specs" "$root/crates/$crate/proofs" "$temp/crates/$crate/"
    grep "^$crate:" "$root/crates.txt" >> "$temp/crates.txt"
done
echo "bench_store staticlib: $below" >> "$temp/crates.txt"
cp "$here/wrappers.txt" "$temp/crates/bench_store/src/lib.rt"
(cd "$temp/crates/bench_store" && rt lib > "$temp/lib.log" 2>&1) || { tail -5 "$temp/lib.log"; exit 1; }
kit=$(dirname "$(rt doc)")
rustc -O -C opt-level=3 -C codegen-units=1 -g --edition 2024 "$here/driver.rs" -o "$temp/driver" \
    -C link-arg="$temp/crates/bench_store/out/libbench_store.a" -C link-arg="$kit/c/liblibc_c.a" 2> "$temp/rustc.log" || { cat "$temp/rustc.log"; exit 1; }

# Lines STORE ROOM CLAUSES MODE STEP INSTRUCTIONS: all that stands below the function of a step.
count() {
    valgrind --tool=callgrind --callgrind-out-file="$temp/out.$1_$2_$3_$4" "$temp/driver" "$1" "$2" "$3" "$4" > "$temp/driver.log" 2> "$temp/valgrind.log" ||
        { tail -5 "$temp/valgrind.log" >&2; exit 1; }
    callgrind_annotate --inclusive=yes --threshold=100 "$temp/out.$1_$2_$3_$4" 2> "$temp/annotate.log" |
        awk -v run="$1 $2 $3 $4" '/:bench_store::/ { n = $1; gsub(",", "", n); sub(/.*:bench_store::/, ""); sub(/[: ].*/, ""); sub(/make_(scanned|indexed)/, "make"); print run, $0, n }'
}

: > "$temp/counts"
for store in scanned indexed; do
    # about half of the room, as many clauses of 2, of 3 and of 4 literals
    for case in "64 30" "512 252" "4096 2046"; do
        set -- $case
        for mode in late early; do
            count $store "$1" 0 $mode >> "$temp/counts"
            count $store "$1" "$2" $mode >> "$temp/counts"
        done
    done
done
awk -f "$here/table.awk" "$temp/counts"
