#!/usr/bin/env bash
# The bindings for Rust and for Python, tested on the shared object that tools/shared_object.sh makes.
set -uo pipefail
cd "$(dirname "$0")/.." || exit 1
log=$(mktemp)
trap 'rm -f "$log"' EXIT
passed=0 failed=0

tally() { # NAME PASSED FAILED STATUS: a run that ends badly and counted no failure is one
    local bad=$3
    [ "$4" -eq 0 ] || [ "$bad" -gt 0 ] || bad=1
    [ "$bad" -eq 0 ] || cat "$log"
    echo "$1: $2 passed, $bad failed"
    passed=$((passed + $2)) failed=$((failed + bad))
}

test_rust() { # FOLDER OF THE LIBRARY
    local folder=$1 status
    if ! command -v cargo >/dev/null; then
        echo "cargo is missing, so the Rust crate cannot be tested" >"$log"
        tally "Rust" 0 1 1
        return
    fi
    FERMION_LIB_DIR=$folder cargo test --offline --locked --no-fail-fast --manifest-path bindings/rust/Cargo.toml \
        --target-dir target/bindings-rust >"$log" 2>&1
    status=$?
    # shellcheck disable=SC2046 # two numbers
    tally "Rust" $(awk '/^test result:/ { good += $4; bad += $6 } END { print good + 0, bad + 0 }' "$log") "$status"
}

# The Python that the package is tried with: one that has NumPy, if there is one, so that nothing is left out.
with_numpy() {
    local each
    for each in python3 /usr/bin/python3; do
        "$each" -c 'import numpy' 2>/dev/null && break
        each=python3
    done
    echo "$each"
}

test_python() { # LIBRARY
    local status ran bad left python
    python=$(with_numpy)
    FERMION_LIB=$1 PYTHONPATH=bindings/python "$python" -m unittest discover -v -s bindings/python/tests >"$log" 2>&1
    status=$?
    ran=$(sed -n 's/^Ran \([0-9]*\) tests\{0,1\} .*/\1/p' "$log")
    bad=$(grep '^FAILED' "$log" | grep -oE '(failures|errors)=[0-9]+' | awk -F= '{ bad += $2 } END { print bad + 0 }')
    left=$(grep -cE '\.\.\. skipped' "$log")
    echo "$("$python" --version); tests left out: $left"
    sed -n "s/.*\.\.\. skipped /  left out: /p" "$log" | sort | uniq -c
    tally "Python" $((${ran:-0} - bad - left)) "$bad" "$status"
}

if ! built=$(tools/shared_object.sh); then
    echo "$built"
    echo "0 passed, 1 failed"
    exit 1
fi
built=${built##*$'\n'} # its last line: the library, and which code it is
echo "called from Rust and Python: ${built#*: }"
library=${built%%: *}
test_python "$library"
test_rust "$(dirname "$library")"
echo "$passed passed, $failed failed"
[ "$failed" -eq 0 ]
