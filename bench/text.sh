#!/usr/bin/env bash
# bench/text.sh: how long ladder text takes, in and out, and how that grows with the text.
set -euo pipefail
cd "$(dirname "$0")/.."
built=$(tools/shared_object.sh)
library=${built##*$'\n'} # the last line: the library, and which code it is
made=$(mktemp -d)
trap 'rm -rf "$made"' EXIT
gcc -O2 -std=c99 -Wall -Wextra -Iinclude -o "$made/text" bench/text.c -ldl
echo "${library#*: }"
"$made/text" "${library%%: *}"
