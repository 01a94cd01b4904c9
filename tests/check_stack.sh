#!/usr/bin/env bash
# What include/fermion.h says of every function: the stack that it needs, null pointers with length 0, nothing in the library
# that can be written to, nothing that it needs but memcpy and memset, and no function that is not declared. On the
# shared object of tools/shared_object.sh and on the archive.
set -uo pipefail
cd "$(dirname "$0")/.." || exit 1
work=$(mktemp -d)
trap 'rm -rf "$work"' EXIT
passed=0 failed=0

is() { # WHAT LINES-THAT-SHOULD-NOT-BE
    if [ -z "$2" ]; then
        echo "$1: ok"
        passed=$((passed + 1))
    else
        printf '%s: NOT SO\n%s\n' "$1" "$2"
        failed=$((failed + 1))
    fi
}

ran() { # NAME COMMAND..: a program that counts for itself
    local name=$1 last
    shift
    echo "== $name"
    "$@" >"$work/log" 2>&1
    local status=$?
    cat "$work/log"
    last=$(tail -n 1 "$work/log")
    if [[ $last =~ ^([0-9]+)\ passed,\ ([0-9]+)\ failed$ ]]; then
        passed=$((passed + BASH_REMATCH[1])) failed=$((failed + BASH_REMATCH[2]))
        [ $status -eq 0 ] || [ "${BASH_REMATCH[2]}" -gt 0 ] || failed=$((failed + 1))
    else
        echo "$name: no closing line (status $status)"
        failed=$((failed + 1))
    fi
}

declared() { grep -oE 'void fermion_\w+\(' include/fermion.h | tr -d '(' | cut -d' ' -f2 | sort; }

# The order made against the sort is that of bench/against_sort.py, which times it.
orders() {
    sed '/^main()$/d' bench/against_sort.py >"$work/against_sort.py"
    PYTHONPATH=$work PYTHONDONTWRITEBYTECODE=1 python3 - <<'PY'
import against_sort
for n in 128, 2048:
    against_sort.N = n
    order, finished = against_sort.made_against()
    assert sorted(order) == list(range(n)) and not finished, "the depth was not used up"
    print(f"static const uint64_t against_{n}[] = {{{','.join(map(str, order))}}};")
PY
}

natively() { # CODE TO LINK WITH
    gcc -std=c11 -O2 -Wall -Wextra -Werror -Iinclude -I"$work" tests/c_stack/stack.c "$1" -Wl,-z,now \
        -Wl,-rpath,"$PWD/target/native" -o "$work/stack" && "$work/stack"
}

if ! built=$(tools/shared_object.sh) || ! orders >"$work/against.h"; then
    echo "0 passed, 1 failed"
    exit 1
fi
library=${built%%: *} archive=target/staticlib/libfermion.a
is "the shared object has the header's functions and no others" \
    "$(diff <(declared) <(nm -D --defined-only "$library" | cut -d' ' -f3 | sort))"
is "the archive has the header's functions and no others" \
    "$(diff <(declared) <(nm -g --defined-only "$archive" | sed -n 's/^[0-9a-f]* T //p' | sort))"
sections='(PROGBITS|NOBITS) .* 0*[1-9a-f][0-9a-f]* [0-9a-f]+ +[A-Z]*W' # that are not empty and can be written to
for code in "$library" "$archive"; do
    is "${code##*/} needs memcpy and memset at most" \
        "$(nm -u "$code" | sed -n 's/^ *[Uw] //p' | grep -vE '^mem(cpy|set)(@.*)?$')"
    is "${code##*/} has no data that can be written to" \
        "$(nm "$code" | grep -E ' [bBdDcC] ' | grep -vE ' (_DYNAMIC|_GLOBAL_OFFSET_TABLE_)$'
        readelf -SW "$code" | grep -E " $sections" | grep -vE ' \.got(\.plt)? ')"
done
is "what the loader writes to libfermion.so is bound and read-only when it is loaded" \
    "$(readelf -dW "$library" | grep -q BIND_NOW && readelf -lW "$library" | grep -q GNU_RELRO || echo "not bound")"
is "libfermion.so asks for no stack that can be run" "$(readelf -lW "$library" | grep GNU_STACK | grep 'E ')"
ran "the archive, on this machine" natively "$archive"
ran "the shared object, on this machine" natively "$library"
echo "$passed passed, $failed failed"
[ "$failed" -eq 0 ]
