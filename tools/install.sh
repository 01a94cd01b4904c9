#!/usr/bin/env bash
# tools/install.sh PREFIX: builds the library where that is still to be done and installs all of it under the folder PREFIX:
# the header, the shared object, the archive, fermion.pc for pkg-config, the Python package with the library inside, the
# Rust crate, the record's document and a C example. docs/INSTALL.md says how to link. Nothing is written outside PREFIX,
# target/ and crates/*/out/, and PREFIX may be moved later, as a whole. With DESTDIR set, it is put in front of PREFIX.
# Each file comes under another name first and takes its place when it is whole.
set -euo pipefail
say() { echo "tools/install.sh: $1" >&2; }
here=$(cd "$(dirname "$(readlink -f "$0")")/.." && pwd -P)
case ${1:-} in
-h | --help) exec sed -n '2,/^set /{/^set /d; s/^# \{0,1\}//; p}' "$here/tools/install.sh" ;;
esac
if [ $# -ne 1 ] || [ -z "$1" ] || [ "${1#-}" != "$1" ]; then
    say "usage: tools/install.sh PREFIX, the folder to install into, as in tools/install.sh ~/fermion"
    exit 2
fi
prefix=$(realpath -m -- "$1")
root=$(realpath -m -- "${DESTDIR:-}$prefix")
cd "$here"
built=$(tools/shared_object.sh) # which says itself what it does, and what is missing
library=${built%%: *}
version=$(sed -n 's/^#define FERMION_VERSION "\(.*\)"$/\1/p' include/fermion.h)
if ! mkdir -p "$root" || ! exec 8<"$root"; then
    say "$root cannot be written to"
    exit 1
fi
flock 8 # two installations into one folder come one after the other
scratch=$(mktemp -d)
unfinished=("$scratch")
trap 'rm -rf "${unfinished[@]}"' EXIT

file() { # FROM TO MODE
    local new
    mkdir -p "$(dirname "$2")"
    new=$(dirname "$2")/.new.$(basename "$2")
    unfinished+=("$new")
    rm -rf "$new"
    cp "$1" "$new"
    chmod "$3" "$new"
    mv -fT "$new" "$2"
}

alias_of() { # NAME LINK
    unfinished+=("$2.new")
    ln -sfn "$1" "$2.new"
    mv -fT "$2.new" "$2"
}

folder() { # TO FROM..: a folder that holds these files and folders, and nothing of an earlier installation
    local to=$1 new
    shift
    new=$(dirname "$to")/.new.$(basename "$to")
    unfinished+=("$new" "$new.old")
    mkdir -p "$(dirname "$to")"
    rm -rf "$new" "$new.old"
    mkdir "$new"
    cp -R "$@" "$new/"
    find "$new" -name __pycache__ -prune -exec rm -rf {} +
    # links to other files of the repository lead nowhere from here: their words stay
    find "$new" -name '*.md' -exec sed -i 's/\[\([^]]*\)\](\.\.[^)]*)/\1/g' {} +
    chmod -R u=rwX,go=rX "$new"
    [ ! -e "$to" ] || mv -T "$to" "$new.old"
    mv -T "$new" "$to"
    rm -rf "$new.old"
}

file include/fermion.h "$root/include/fermion.h" 644
file "$library" "$root/lib/libfermion.so.$version" 755
alias_of "libfermion.so.$version" "$root/lib/libfermion.so.0"
alias_of libfermion.so.0 "$root/lib/libfermion.so"
file target/staticlib/libfermion.a "$root/lib/libfermion.a" 644
sed "s/@VERSION@/$version/" tools/fermion.pc.in >"$scratch/fermion.pc"
file "$scratch/fermion.pc" "$root/lib/pkgconfig/fermion.pc" 644
cp "$library" "$scratch/libfermion.so"
folder "$root/lib/python/fermion" bindings/python/fermion/* "$scratch/libfermion.so"
folder "$root/share/fermion/rust" bindings/rust/{Cargo.toml,Cargo.lock,build.rs,README.md,src} LICENSE NOTICE
folder "$root/share/doc/fermion" docs/{INSTALL,RECORD,PROMISES}.md examples/example.c LICENSE NOTICE

quoted=$(printf %q "$prefix")
cat <<TEXT
fermion $version is in $root
C:       export PKG_CONFIG_PATH=$quoted/lib/pkgconfig
         cc example.c \$(pkg-config --cflags --libs fermion)      with $quoted/share/doc/fermion/example.c
Python:  export PYTHONPATH=$quoted/lib/python
Rust:    fermion = { path = "$prefix/share/fermion/rust" }        under [dependencies] of Cargo.toml
TEXT
