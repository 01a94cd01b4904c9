#!/bin/sh
# Builds zixy's own files, unchanged, together with the shims and programs of rust/.
#
#   ZIXY_SRC=<folder> sh oracle/build.sh               the unchanged Rust,  into oracle/build/unchanged/
#   ZIXY_SRC=<folder> sh oracle/build.sh --corrected   the corrected copy,  into oracle/build/corrected/
#
# With --debug as well, cargo's debug profile is built too (it checks shifts and sums for overflow).
# <folder> is zixy's src/ at commit 989b739716: the 37 files listed in zixy.sha256.
set -eu
caller=$PWD
cd "$(dirname "$0")"
here=$PWD

kind=unchanged
debug=no
for option in "$@"; do
    case $option in
        --corrected) kind=corrected ;;
        --debug) debug=yes ;;
        *) echo "build.sh: unknown option $option" >&2; exit 2 ;;
    esac
done

if [ -z "${ZIXY_SRC:-}" ]; then
    echo "build.sh: set ZIXY_SRC to the folder of zixy's sources (the one that holds fermion/ and container/)" >&2
    exit 2
fi
if ! source=$(cd "$caller" && cd "$ZIXY_SRC" 2>/dev/null && pwd); then
    echo "build.sh: ZIXY_SRC is not a folder: $ZIXY_SRC" >&2
    exit 2
fi
if ! (cd "$source" && sha256sum --check --quiet "$here/zixy.sha256"); then
    echo "build.sh: the files in ZIXY_SRC are not those that zixy.sha256 lists" >&2
    exit 1
fi
registry=/usr/share/cargo/registry
complex=$(ls -d "$registry"/num-complex-0.4.* 2>/dev/null | head -n 1)
if [ -z "$complex" ]; then
    echo "build.sh: Debian's Rust packages are missing; README.md lists them" >&2
    exit 1
fi

# The tree: our files first, then zixy's. No shim stands where zixy has a file.
tree=$here/build/$kind
mkdir -p "$tree"
rm -rf "$tree/zixy" "$tree/programs" "$tree/ndarray" "$tree/pluralizer" "$tree/num-complex"
cp -R rust/. "$tree/"
while read -r _ file; do
    if [ -e "$tree/zixy/src/$file" ]; then
        echo "build.sh: a shim stands in the place of zixy's $file" >&2
        exit 1
    fi
    mkdir -p "$tree/zixy/src/$(dirname "$file")"
    cp "$source/$file" "$tree/zixy/src/$file"
done < zixy.sha256
if [ "$kind" = corrected ]; then
    chmod -R u+w "$tree/zixy"
    python3 corrections.py "$tree/zixy/src"
fi

# A copy of products.rs with one line more, only to reach a private function.
normal=$tree/zixy/src/fermion/operator/normal
{
    cat "$normal/products.rs"
    echo 'pub fn count_open(word: u64, at: u64) -> u32 { count_before_each_set_bit(word, at) }'
} > "$normal/products_open.rs"

# zixy uses Complex64::I, a constant that Debian 12's num-complex 0.4.0 does not have.
cp -R "$complex" "$tree/num-complex"
rm -f "$tree/num-complex/.cargo-checksum.json"
if ! grep -q 'pub const I:' "$tree/num-complex/src/lib.rs"; then
    cat >> "$tree/num-complex/src/lib.rs" <<'RUST'
impl Complex<f64> {
    pub const I: Self = Self::new(0.0, 1.0);
}
RUST
fi

cd "$tree"
export CARGO_TARGET_DIR="$tree/target"
cargo --config cargo-config.toml build --quiet -j1 --release
echo "built oracle/build/$kind/target/release/oracle and the programs bench_mul, bench_add, bench_commutator, bench_count, bench_float, bench_matrix, bench_n_body"
if [ "$debug" = yes ]; then
    cargo --config cargo-config.toml build --quiet -j1
    echo "built oracle/build/$kind/target/debug/oracle"
fi
