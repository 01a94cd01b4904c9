#!/usr/bin/env bash
# tools/install.sh into a fresh folder, which is then moved; and from a folder outside the repository, with nothing that names
# the repository: the C example by its documented line, as C and as C++, the Python package, pip without a network, and a
# Rust program on the crate; and the archive.
set -uo pipefail
cd "$(dirname "$0")/.." || exit 1
repository=$PWD
work=$(mktemp -d)
trap 'rm -rf "$work"' EXIT
mkdir "$work/elsewhere" "$work/tmp"
unset FERMION_LIB FERMION_LIB_DIR PYTHONPATH PKG_CONFIG_PATH LD_LIBRARY_PATH DESTDIR CARGO_TARGET_DIR
export TMPDIR=$work/tmp PYTHONDONTWRITEBYTECODE=1
export PIP_DISABLE_PIP_VERSION_CHECK=1 PIP_ROOT_USER_ACTION=ignore PIP_CONFIG_FILE=/dev/null
first=$work/first there=$work/there passed=0 failed=0
expected="fermion 0.1.0: 80 bytes, 2 terms
  1 creates 1, annihilates 1
 -1 creates 2, annihilates 2"

check() { # NAME COMMAND..: one test; what it said is shown where it fails
    if (cd "$work/elsewhere" && "${@:2}") >"$work/log" 2>&1; then
        echo "$1: ok"
        passed=$((passed + 1))
    else
        echo "$1: NOT SO"
        sed 's/^/  /' "$work/log"
        failed=$((failed + 1))
    fi
}
same() { # GOT EXPECTED
    [ "$1" = "$2" ] || { printf 'got:\n%s\nexpected:\n%s\n' "$1" "$2" && false; }
}
files_of() { (cd "$1" && find . ! -type d | LC_ALL=C sort); }
flags() { PKG_CONFIG_PATH=$there/lib/pkgconfig pkg-config "$@" fermion; }

installs() { "$repository/tools/install.sh" "$first"; }

has_all() {
    local name
    for name in include/fermion.h lib/libfermion.so.0.1.0 lib/pkgconfig/fermion.pc \
        lib/python/fermion/{__init__.py,py.typed,libfermion.so} share/fermion/rust/{Cargo.toml,build.rs,src/lib.rs} \
        share/fermion/rust/{LICENSE,NOTICE} share/doc/fermion/{INSTALL.md,RECORD.md,example.c,LICENSE,NOTICE}; do
        [ -f "$first/$name" ] || { echo "$name is not there" && return 1; }
    done
    same "$(readlink "$first/lib/libfermion.so")" libfermion.so.0 || return
    same "$(readlink "$first/lib/libfermion.so.0")" libfermion.so.0.1.0 || return
    cmp "$first/include/fermion.h" "$repository/include/fermion.h" || return
    cmp "$first/lib/libfermion.so" "$first/lib/python/fermion/libfermion.so" || return
    same "$(files_of "$first" | grep -E '\.new|__pycache__|/target/')" "" || return
    cmp "$first/lib/libfermion.a" "$repository/target/staticlib/libfermion.a"
}

installs_again() { # what is of no use any more goes, and nothing else changes
    cp -R "$first" "$work/before"
    echo 'raise ImportError' >"$first/lib/python/fermion/_gone.py"
    "$repository/tools/install.sh" "$first" && diff -r "$work/before" "$first"
}

installs_at_a_relative_path_with_spaces() {
    "$repository/tools/install.sh" "in a/place with spaces" && diff -r "$first" "in a/place with spaces"
}

installs_under_destdir() {
    local prefix=/no-such-folder-$$/fermion
    DESTDIR=$work/staged "$repository/tools/install.sh" "$prefix" && diff -r "$first" "$work/staged$prefix" &&
        [ ! -e "$prefix" ]
}

installs_under_a_relative_destdir() { # from where one stands, not from the repository
    DESTDIR=staged "$repository/tools/install.sh" /usr/fermion && diff -r "$first" staged/usr/fermion &&
        [ ! -e "$repository/staged" ]
}

installs_twice_at_once() { # several turns, since two do not always meet
    local turn one two
    for turn in 1 2 3 4 5; do
        rm -rf "$work/twice"
        "$repository/tools/install.sh" "$work/twice" & one=$!
        "$repository/tools/install.sh" "$work/twice" & two=$!
        wait $one && wait $two && diff -r "$first" "$work/twice" || { echo "turn $turn" && return 1; }
    done
}

links_lead_somewhere() { # in the documents that are installed
    python3 - "$first" <<'PY'
import pathlib, re, sys
pages = [page for page in pathlib.Path(sys.argv[1]).rglob("*.md")]
dead = [f"{page}: {link}" for page in pages for link in re.findall(r"\]\(([^)#\s]+)[^)]*\)", page.read_text(encoding="utf-8"))
        if "://" not in link and not (page.parent / link).exists()]
assert len(pages) >= 4 and not dead, dead
PY
}

leaves_nothing_half_written() { # where lib is a file, no installation is possible
    mkdir "$work/unfit" && : >"$work/unfit/lib"
    if "$repository/tools/install.sh" "$work/unfit"; then
        echo "it claims to have installed" && return 1
    fi
    same "$(files_of "$work/unfit" | grep '\.new')" "" && same "$(ls "$TMPDIR")" ""
}

c_names_itself() {
    same "$(readelf -dW "$there/lib/libfermion.so" | sed -n 's/.*(SONAME).*\[\(.*\)\]/\1/p')" libfermion.so.0
}

versions_agree() {
    local crate=$there/share/fermion/rust
    same "$(flags --modversion)" 0.1.0 &&
        same "$(sed -n 's/^#define FERMION_VERSION "\(.*\)"/\1/p' "$there/include/fermion.h")" 0.1.0 &&
        same "$(sed -n 's/^version = "\(.*\)"/\1/p' "$crate/Cargo.toml")" 0.1.0 &&
        same "$(grep -A 1 '^name = "fermion"' "$crate/Cargo.lock" | sed -n 's/^version = "\(.*\)"/\1/p')" 0.1.0 &&
        same "$(PYTHONPATH=$there/lib/python python3 -c 'import fermion; print(fermion.__version__)')" 0.1.0
}

header_alone() { # the header, and constants that docs/RECORD.md gives
    cat >header.c <<'C'
#include <fermion.h>
#define SAME(name, x, y) typedef char name[(x) == (y) ? 1 : -1]
SAME(record, FERMION_MAX_RECORD, 32 + FERMION_ROW * FERMION_MAX_TERMS);
SAME(longest, FERMION_MAX_RECORD, 49184);
SAME(terms, FERMION_MAX_TERMS, 2048);
SAME(modes, FERMION_MAX_MODES, 64);
SAME(row, FERMION_ROW, 24);
SAME(weight, FERMION_MAX_WEIGHT, 1152921504606846976);
SAME(basis, FERMION_MAX_BASIS, 8);
SAME(report, FERMION_REPORT, 6 + 3 * (FERMION_MAX_MODES + 1));
SAME(numbers, FERMION_REPORT, 201);
SAME(reported, FERMION_MAX_REPORTED, 1024);
C
    cp header.c header.cpp
    gcc -std=c99 -Wall -Wextra -Wpedantic -Werror "-I$there/include" -c header.c -o header.o &&
        g++ -std=c++11 -Wall -Wextra -Wpedantic -Werror "-I$there/include" -c header.cpp -o header.o
}

refusals_by_number() { # in the order of docs/RECORD.md's table
    local names name number=0
    names="OK MALFORMED WORD_OUTSIDE OUT_OF_ORDER ZERO_COEFF TOO_HEAVY MODES_DIFFER ROWS_DO_NOT_FIT PRODUCT_TOO_HEAVY
        RESULT_TOO_HEAVY TOO_MANY_TERMS OUTPUT_TOO_SHORT OCCUPATION_OUTSIDE NOT_FINITE BAD_BASIS BAD_REPORT BAD_LINE TOO_MANY_LADDERS
        NO_SUCH_PARTY DAMAGED_HALF NO_FREE_SLOT NO_GAP NO_SUCH_SLOT"
    echo '#include <fermion.h>' >numbers.c
    for name in $names; do
        echo "typedef char is_${name}[FERMION_$name == $((number++)) ? 1 : -1];" >>numbers.c
    done
    gcc -std=c99 "-I$there/include" -c numbers.c -o numbers.o || return
    same "$(sed -n '/^enum fermion_refusal/,/^}/p' "$there/include/fermion.h" | grep -cE '^    FERMION_[A-Z_]+ = [0-9]+')" 23
}

documented_line() { # as the example and docs/INSTALL.md have it
    local line
    line=$(grep -oE 'cc example\.c \$\(pkg-config --cflags --libs fermion\)' "$there/share/doc/fermion/example.c")
    if [ -z "$line" ] || ! grep -qF "$line" "$there/share/doc/fermion/INSTALL.md"; then
        echo "the line is not in both documents" && return 1
    fi
    cp "$there/share/doc/fermion/example.c" . && PKG_CONFIG_PATH=$there/lib/pkgconfig bash -c "$line" &&
        same "$(./a.out)" "$expected"
}

as_cpp() {
    # shellcheck disable=SC2046 # words are wanted
    g++ -std=c++11 -Wall -Wextra -Wpedantic -Werror -x c++ example.c -x none $(flags --cflags --libs) -o cpp &&
        same "$(./cpp)" "$expected"
}

in_a_folder_with_spaces() {
    export PKG_CONFIG_PATH="$PWD/in a/place with spaces/lib/pkgconfig"
    eval "cc example.c -o spaces $(pkg-config --cflags --libs fermion)" && same "$(./spaces)" "$expected"
}

statically() {
    cc example.c "-I$there/include" "$there/lib/libfermion.a" -o static && same "$(./static)" "$expected" &&
        same "$(readelf -dW static | grep fermion)" ""
}

from_python() { # FOLDER OF THE PACKAGE
    cat >use.py <<'PY'
import sys
import fermion
hop = fermion.Record.build(2, [(fermion.word(0), fermion.word(1), 1)])
print(fermion.commutator(hop, fermion.adjoint(hop)).record)
with open("/proc/self/maps", encoding="utf-8") as maps:
    loaded = {line.split(None, 5)[-1].strip() for line in maps if "libfermion" in line}
assert loaded == {sys.argv[1] + "/fermion/libfermion.so"}, loaded
PY
    same "$(PYTHONPATH=$1 python3 use.py "$1")" "1 {0|0} - 1 {1|1}"
}

pip_offline() { # WORDS..: with a network that leads nowhere
    http_proxy=http://127.0.0.1:9 https_proxy=http://127.0.0.1:9 PIP_NO_INDEX=1 \
        python3 -m pip --no-cache-dir "$@" "$repository/bindings/python"
}

by_pip() {
    pip_offline install --target "$work/site" && from_python "$work/site" &&
        cmp "$work/site/fermion/libfermion.so" "$there/lib/libfermion.so" &&
        ls "$work/site/fermion/py.typed" "$work/site"/fermion-0.1.0.dist-info/licenses/{LICENSE,NOTICE}
}

wheels_are_right() { # the same bytes twice, and RECORD has every file with its hash and length
    pip_offline wheel -w "$work/w1" && pip_offline wheel -w "$work/w2" && diff -r "$work/w1" "$work/w2" &&
        same "$(ls "$work/w1")" "fermion-0.1.0-py3-none-linux_$(uname -m).whl" && python3 - "$work"/w1/*.whl <<'PY'
import base64, csv, hashlib, io, sys, zipfile
wheel = zipfile.ZipFile(sys.argv[1])
listed = io.TextIOWrapper(wheel.open("fermion-0.1.0.dist-info/RECORD"), encoding="utf-8")
rows = {row[0]: row[1:] for row in csv.reader(listed)}
assert set(rows) == set(wheel.namelist()), "RECORD names other files"
for name, row in rows.items():
    data = wheel.read(name)
    digest = base64.urlsafe_b64encode(hashlib.sha256(data).digest()).rstrip(b"=").decode()
    assert row == (["", ""] if name.endswith("/RECORD") else ["sha256=" + digest, str(len(data))]), name
PY
}

pip_without_a_library() {
    if FERMION_LIB=$work/none.so pip_offline wheel -w "$work/w3" >"$work/pip" 2>&1; then
        echo "a wheel without the library" && return 1
    fi
    cat "$work/pip"
    grep -q "none.so is not there: run tools/shared_object.sh" "$work/pip" && ! grep -q Traceback "$work/pip"
}

from_rust() {
    mkdir -p rust/src
    cat >rust/Cargo.toml <<TOML
[package]
name = "user"
version = "1.0.0"
edition = "2021"

[dependencies]
fermion = { path = "$there/share/fermion/rust" }
TOML
    cat >rust/src/main.rs <<'RS'
use fermion::{adjoint, commutator, word, Record};

fn main() -> Result<(), fermion::Refusal> {
    let hop = Record::build(2, [(word(&[0]), word(&[1]), 1)])?;
    println!("{}", commutator(&hop, &adjoint(&hop)?)?.record);
    Ok(())
}
RS
    export CARGO_TARGET_DIR=$work/cargo
    cargo build --offline --manifest-path rust/Cargo.toml || return
    same "$(cargo run --offline --quiet --manifest-path rust/Cargo.toml)" "1 {0|0} - 1 {1|1}" &&
        same "$(LD_LIBRARY_PATH=$there/lib "$work/cargo/debug/user")" "1 {0|0} - 1 {1|1}"
}

check "it installs" installs
check "all files are there, and no others' leftovers" has_all
check "it installs a second time into the same folder" installs_again
check "it installs at a relative path with spaces" installs_at_a_relative_path_with_spaces
check "it installs under DESTDIR" installs_under_destdir
check "it installs under a DESTDIR that is relative" installs_under_a_relative_destdir
check "two installations at once into one folder" installs_twice_at_once
check "links of the installed documents lead somewhere" links_lead_somewhere
check "an installation that fails leaves nothing half-written" leaves_nothing_half_written
mv "$first" "$there"
check "the shared object names itself libfermion.so.0" c_names_itself
check "one version everywhere" versions_agree
check "the header alone, as C99 and as C++11" header_alone
check "the refusals by name have the numbers of docs/RECORD.md" refusals_by_number
check "the C example by its documented line" documented_line
check "the C example as C++" as_cpp
check "the C example with a library in a folder with spaces" in_a_folder_with_spaces
check "the C example with the archive" statically
check "the Python package" from_python "$there/lib/python"
check "pip installs without a network" by_pip
check "two wheels are the same bytes, and RECORD is right" wheels_are_right
check "pip says in a sentence that the library is missing" pip_without_a_library
check "a Rust program on the crate" from_rust
echo "$passed passed, $failed failed"
[ "$failed" -eq 0 ]
