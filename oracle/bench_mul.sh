#!/bin/sh
# Times one product: the unchanged Rust and, where given, the library, in one process on the same pairs.
#
#   sh oracle/bench_mul.sh [LIBRARY.so]
#
# LIBRARY.so is a dynamic library with fermion_mul_cmpnts (README.md says how to make one). oracle/build.sh
# must have been run. The second table shows how the time grows with the number of branching modes.
set -eu
here=$(cd "$(dirname "$0")" && pwd)
bench=$here/build/unchanged/target/release/bench_mul
pairs=$here/build/pairs
if [ ! -x "$bench" ]; then
    echo "bench_mul.sh: run oracle/build.sh first" >&2
    exit 1
fi
if [ $# -ge 1 ]; then
    case $1 in
        */*) ;;
        *) set -- "./$1" ;; # without a slash dlopen would search the system's folders
    esac
    set -- --library "$1"
fi
python3 "$here/make_pairs.py" "$pairs"
echo "two-body products"
"$bench" "$@" "$pairs"/two_body_*.txt
echo
echo "products with 0 to 12 branching modes"
"$bench" "$@" "$pairs"/growth_*.txt
