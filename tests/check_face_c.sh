#!/usr/bin/env bash
# The functions of the C face, called from C through include/fermion.h and compared with the plain implementation in
# tests/c. The test is linked with the archive itself, which tools/shared_object.sh makes.
set -euo pipefail
cd "$(dirname "$0")/.."
work=$(mktemp -d)
trap 'rm -rf "$work"' EXIT
tools/shared_object.sh >/dev/null
echo "called from C: linked with the archive itself"
gcc -std=c11 -O2 -Wall -Wextra -Werror -Iinclude tests/c/*.c target/staticlib/libfermion.a -o "$work/face"
"$work/face"
