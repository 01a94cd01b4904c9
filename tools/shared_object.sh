#!/usr/bin/env bash
# tools/shared_object.sh [OUT.so]: the proved library `fermion` as a shared object, to be installed, called from Python or
# timed. OUT is target/native/libfermion.so unless given. Its code is that of the archive that `rt lib` makes in
# crates/fermion, for any x86-64 processor, which is kept as target/staticlib/libfermion.a. The last line says which code it
# is.
# What is being done is told on standard error; standard output has that last line alone.
# Where nothing under crates/ has changed since OUT was made, it is not made again: the file OUT.from says what it was made
# from, what came out, and which code it is. A new OUT is built beside the old one and takes its place only when it is
# whole, so a build that fails leaves the old one as it was. Beside OUT stands libfermion.so.0, the name under which a
# program that is linked with OUT looks for it: a second name of the same file and no symbolic link, which `rt ci` refuses
# wherever it stands in the repository.
# Where PROVED_SINCE names a file that was made just before `rt ci` began, the libraries that `rt ci` proved and left in
# crates/*/out/ since then are taken as they are, and only the crate fermion is proved again.
set -euo pipefail
out=$(realpath -m -- "${1:-$(dirname "$(readlink -f "$0")")/../target/native/libfermion.so}")
since=${PROVED_SINCE:+$(realpath -m -- "$PROVED_SINCE")}
cd "$(dirname "$(readlink -f "$0")")/.."

say() { echo "tools/shared_object.sh: $1" >&2; }
need() { # COMMAND WHAT-FOR
    command -v "$1" >/dev/null && return
    say "$1 is not on PATH: $2"
    exit 1
}
case ${1:-} in
-h | --help) exec sed -n '2,/^set /{/^set /d; s/^# \{0,1\}//; p}' tools/shared_object.sh ;;
esac
need flock "it keeps two builds apart (util-linux)"
need rt "it is the command of the Rattle toolchain, which proves and compiles the library (docs/INSTALL.md)"
log=target/log/shared_object.out
archive=target/staticlib/libfermion.a
kind="x86-64, the archive's own code"

sources() {
    {
        rt version
        sha256sum tools/shared_object.sh crates.txt
        find crates -path 'crates/*/out' -prune -o -type f -exec sha256sum {} + | sort
    } | sha256sum
}
results() { cat "$@" 2>/dev/null | sha256sum; } # OUT, its second name, the archive
from=$(sources)
alias=$(dirname "$out")/libfermion.so.0
stop_if_made() { # nothing has changed since OUT was made
    if [ -f "$out" ] && [ -f "$alias" ] && [ -f "$archive" ] &&
        [ "$(head -n 2 "$out.from" 2>/dev/null)" = "$from"$'\n'"$(results "$out" "$alias" "$archive")" ]; then
        echo "$out: $(tail -n 1 "$out.from")"
        exit
    fi
}
stop_if_made # before anything is written, for a folder that can only be read
lock=target/shared_object.lock # one for every OUT: they share the archive and the log
if ! mkdir -p "$(dirname "$out")" target/log target/staticlib 2>/dev/null || [ ! -w "$(dirname "$out")" ] ||
    ! : 2>/dev/null >>"$lock"; then
    say "the library is to be made, and $(dirname "$out") or target/ cannot be written to"
    exit 1
fi
exec 9>"$lock"
flock 9 # two tests may ask for it at once
stop_if_made

need gcc "it links the shared object"
work=$(mktemp -d "$PWD/target/shared_object.XXXXXX")
new=$out.new
trap 'rm -rf "$work" "$new" "$new.from"' EXIT

logged() { # NAME COMMAND..: its lines go to the log, those of rt to standard error too; where it fails, all that was said
    "${@:2}" 2>&1 | tee -a "$log" | { grep --line-buffered '^rt: ' >&2 || true; } && return
    cat "$log" >&2
    say "this failed: $1. $([ -f "$out" ] && echo "$out is as it was" || echo "Nothing was made")"
    exit 1
}

libraries() { sed -n 's/#.*//; s/^fermion staticlib: *//p' crates.txt; }

# Whether the libraries are those that `rt ci` made of the files as they are: no file has changed since it began, and no
# library is older, as one that it put back is.
are_proved() {
    local each
    [ -n "$since" ] && [ -f "$since" ] &&
        [ -z "$(find crates.txt crates -path 'crates/*/out' -prune -o \( -type f -o -path 'crates/*/*' \) -newer "$since" \
            -print -quit)" ] || return 1
    for each in $(libraries); do
        [ ! -d "crates/$each" ] || [ -d "crates/$each/out/rlib/$each.rlib" ] || return 1
    done
    [ -z "$(find crates -path 'crates/*/out/rlib' -prune ! -newer "$since" -print -quit)" ]
}

over_proved() { # WHERE-TO: what `rt lib` does for the crate itself
    local each kit words=()
    kit=$(cd "$(dirname "$(readlink -f "$(command -v rt)")")/.." && pwd -P)
    for each in $(libraries); do
        if [ -d "crates/$each" ]; then
            words+=(--extern "$each=../$each/out/rlib/$each.rlib")
        else
            words+=(--extern "$each=$kit/rlibs/$each.rlib")
        fi
    done
    for each in crates/*/out/rlib; do
        words+=(-L "dependency=../../$each")
    done
    cd crates/fermion
    "$kit/bin/rattle" build --crate-name fermion --crate-type staticlib --cpu=x86-64 src/lib.rt \
        --extern "std=$kit/rlibs/std.rlib" -L "dependency=$kit/rlibs" "${words[@]}" \
        --antt-project "$kit/rattle/logic/antt-project.json" --logic-built "$kit/logic_built" \
        --toolchain "$kit/toolchain" --backend llvm --links fermion= --jobs 2 -o "$1"
}

by_rt() { # WHERE-TO
    (cd crates/fermion && rt lib --cpu=x86-64) && cp crates/fermion/out/libfermion.a "$1"
}

# Without the compiler's start files, and with its calls of memcpy and memset bound when it is loaded, nothing in the library
# can be written to.
link() {
    gcc -shared -nostartfiles -Wl,-soname,libfermion.so.0,-z,relro,-z,now -o "$1" -Wl,--whole-archive "$2" \
        -Wl,--no-whole-archive
}

: >"$log"
if are_proved; then
    say "proving and compiling the crate fermion over the libraries that rt ci has proved (a minute or two)"
    logged "rattle build" over_proved "$work/libfermion.a"
else
    say "proving and compiling: rt lib in crates/fermion (from nothing as long as all proofs take, half a minute where they are kept)"
    logged "rt lib in crates/fermion" by_rt "$work/libfermion.a"
fi
logged "gcc -shared" link "$new" "$work/libfermion.a"
printf '%s\n' "$from" "$(results "$new" "$new" "$work/libfermion.a")" "$kind" >"$new.from"
mv -f "$work/libfermion.a" "$archive"
mv -f "$new" "$out"
[ "$out" = "$alias" ] || ln -f "$out" "$alias"
mv -f "$new.from" "$out.from"
echo "$out: $kind"
