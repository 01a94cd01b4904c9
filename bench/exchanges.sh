#!/usr/bin/env bash
# bench/exchanges.sh [COMMIT]: elements, projected matrices and `count_before_each_set_bit` beside zixy's and, where COMMIT is
# named, beside themselves at COMMIT: each three in one process, by turns. Each library is linked at four places, and the
# means of its times are told. The C face does not have the count, so that it is compiled in trees of their own, with a
# face of one function. oracle/README.md lists what the Rust needs.
set -euo pipefail
cd "$(dirname "$0")/.."
places=(16 32 48 64)
programs=oracle/build/unchanged/target/release
[ -x "$programs/bench_count" ] || sh oracle/build.sh
made=$(mktemp -d)
trap 'rm -rf "$made"' EXIT

counting() { # TREE NAME: a tree whose face is the count alone, which it prints; outside the repository, as that of earlier.sh
    local crate tree=${XDG_CACHE_HOME:-$HOME/.cache}/fermion/count/$2
    rm -rf "$tree/crates"
    mkdir -p "$tree/crates/fermion/src" "$tree/tools"
    cp tools/shared_object.sh "$tree/tools/"
    for crate in modes integers lent products; do
        cp -R "$1/crates/$crate" "$tree/crates/"
        grep "^$crate:" "$1/crates.txt"
    done >"$tree/crates.txt"
    echo "fermion staticlib: modes integers lent products" >>"$tree/crates.txt"
    cat >"$tree/crates/fermion/src/lib.rt" <<'RT'
#![tactic(auto)]

#[unsafe(no_mangle)]
pub extern "C" fn fermion_count(word: u64, at: u64) -> u32 {
    products::count_before_each_set_bit(word, at)
}
RT
    echo "$tree"
}

earlier=()
counted=()
if [ $# -gt 0 ]; then
    old=$(bench/earlier.sh "$1")
    bench/places.sh "$old" "$made/old" "${places[@]}" >/dev/null
    bench/places.sh "$(counting "$old" earlier)" "$made/old_count" "${places[@]}" >/dev/null
    earlier=(-- "$made"/old.*.so)
    counted=(-- "$made"/old_count.*.so)
fi
bench/places.sh . "$made/new" "${places[@]}"
bench/places.sh "$(counting . now)" "$made/new_count" "${places[@]}" >/dev/null
for program in float matrix; do
    "$programs/bench_$program" "$made"/new.*.so ${earlier[@]+"${earlier[@]}"}
done
"$programs/bench_count" "$made"/new_count.*.so ${counted[@]+"${counted[@]}"}
