#!/usr/bin/env bash
# bench/against.sh COMMIT [BYTES..]: what each call costs, at COMMIT and in this tree: both libraries in one process, by turns.
# Where code lies changes its speed, so each library is linked several times, its code so many BYTES further on (16, 32, 48
# and 64, unless up to 16 others are named), and the means are compared. COMMIT is one that today's toolchain proves; that
# is done in a folder of its own, and takes ten minutes from nothing.
set -euo pipefail
cd "$(dirname "$0")/.."
old=$(bench/earlier.sh "$1")
shift
[ $# -gt 0 ] || set -- 16 32 48 64
made=$(mktemp -d)
trap 'rm -rf "$made"' EXIT

bench/places.sh "$old" "$made/old" "$@" >/dev/null
bench/places.sh . "$made/new" "$@"
gcc -O2 -std=c99 -Wall -Wextra -Iinclude -o "$made/costs" bench/costs.c -ldl
"$made/costs" "$made"/old.*.so -- "$made"/new.*.so
