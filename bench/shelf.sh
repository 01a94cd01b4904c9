#!/usr/bin/env bash
# bench/shelf.sh: how long the calls of a shelf take, and how that grows with the record and with what the half holds.
set -euo pipefail
cd "$(dirname "$0")/.."
built=$(tools/shared_object.sh)
library=${built##*$'\n'} # the last line: the library, and which code it is
made=$(mktemp -d)
trap 'rm -rf "$made"' EXIT
gcc -O2 -std=c99 -Wall -Wextra -Iinclude -o "$made/shelf" bench/shelf.c -ldl
echo "${library#*: }"
"$made/shelf" "${library%%: *}"
