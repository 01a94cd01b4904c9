#!/usr/bin/env bash
# bench/places.sh TREE OUT BYTES..: the library of a tree of this project, linked once for each number of BYTES, its code so
# many bytes further on: OUT.BYTES.so. Where code lies changes its speed. Prints which code it is.
set -euo pipefail
tree=$1 out=$2
shift 2
built=$("$tree/tools/shared_object.sh" | tail -n 1)
code=(-Wl,--whole-archive "$tree/target/staticlib/libfermion.a" -Wl,--no-whole-archive)
for bytes; do
    printf '.text\n.space %d\n.section .note.GNU-stack,"",%%progbits\n' "$bytes" >"$out.s"
    gcc -shared -nostartfiles -o "$out.$bytes.so" "$out.s" "${code[@]}"
done
rm -f "$out.s"
echo "${built#*: }"
