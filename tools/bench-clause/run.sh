#!/bin/sh
# Instructions of each operation of `clause` and of `lemmas_subsume_simplify` against the source's function on the same 2,000 pairs, by callgrind: run.sh [TEMP]
set -e
here=$(cd "$(dirname "$0")" && pwd)
root=$(cd "$here/../.." && pwd)
temp=${1:-$(mktemp -d)}
mkdir -p "$temp/crates/bench_clause/src"
for crate in network clause queue lemmas; do
    mkdir -p "$temp/crates/$crate"
    cp -r "$root/crates/$crate/src" "$root/crates/$crate/specs" "$root/crates/$crate/proofs" "$temp/crates/$crate/"
done
cp "$here/wrappers.txt" "$temp/crates/bench_clause/src/lib.rt"
printf 'network:\nclause: network\nqueue:\nlemmas: network clause queue\nbench_clause staticlib: network clause queue lemmas\n' > "$temp/crates.txt"
(cd "$temp/crates/bench_clause" && rt lib > "$temp/lib.log" 2>&1) || { tail -5 "$temp/lib.log"; exit 1; }
kit=$(dirname "$(rt doc)")
rustc -O -C opt-level=3 -C codegen-units=1 -g --edition 2024 "$here/driver.rs" -o "$temp/driver" \
    -C link-arg="$temp/crates/bench_clause/out/libbench_clause.a" -C link-arg="$kit/c/liblibc_c.a" 2> "$temp/rustc.log" || { cat "$temp/rustc.log"; exit 1; }
count() {
    counted=$2_$1
    # the values come as bytes: what makes them is no part of the operation
    [ "$counted" != rattle_simp ] || counted=bench_clause::simp_counted
    valgrind --tool=callgrind --callgrind-out-file="$temp/out.$2_$1" --toggle-collect="$counted" "$temp/driver" "$1" "$2" > "$temp/answer.$2" 2> "$temp/valgrind.log"
    awk '/^summary:|^totals:/ { t = $2 } END { print t }' "$temp/out.$2_$1"
}
# instructions of the allocator within them
heap() {
    callgrind_annotate --threshold=100 "$temp/out.source_$1" 2>/dev/null | awk '/malloc|free|realloc|calloc|_int_|__rust|rdl_|__rg_|tcache|checked_request|arena/ { gsub(",", "", $1); s += $1 } END { print s + 0 }'
}
for op in simp resolvent subsume except_one drop signature may_subsume may_fit lemmas; do
    s=$(count $op source); r=$(count $op rattle)
    same=$(cmp -s "$temp/answer.source" "$temp/answer.rattle" && echo same || echo DIFFERENT)
    echo "$op $s $(heap $op) $r $same" | awk '{ printf "%-12s source %8d (allocator %7d)  rattle %8d  ratio %.2f  without allocator %.2f  answers %s\n", $1, $2, $3, $4, $4 / $2, $4 / ($2 - $3), $5 }'
done
