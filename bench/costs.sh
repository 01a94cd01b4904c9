#!/usr/bin/env bash
# bench/costs.sh: what each call costs, and the worst that was found for it, as the table of docs/SPEED.md.
set -euo pipefail
cd "$(dirname "$0")/.."
built=$(tools/shared_object.sh)
library=${built##*$'\n'} # the last line: the library, and which code it is
made=$(mktemp -d)
trap 'rm -rf "$made"' EXIT
gcc -O2 -std=c99 -Wall -Wextra -Iinclude -o "$made/costs" bench/costs.c -ldl
echo "${library#*: }"
"$made/costs" "${library%%: *}"
