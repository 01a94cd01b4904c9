#!/usr/bin/env bash
# tools/run.sh NAME [ARGUMENT..]: runs the proved program crates/NAME/out/NAME, which `rt ci` leaves there, as `rt run` in
# crates/NAME does. The arguments, standard input and output are the program's own.
set -euo pipefail
cd "$(dirname "$(readlink -f "$0")")/.."
say() { echo "tools/run.sh: $1" >&2; }
usage="usage: tools/run.sh NAME [ARGUMENT..], a program that 'rt run' in crates/NAME has proved, as in tools/run.sh commutator <two-records"
case ${1:-} in
-h | --help)
    echo "$usage"
    exit
    ;;
esac
if [ $# -eq 0 ] || [ -z "$1" ]; then
    say "$usage"
    exit 2
fi
program=crates/$1/out/$1
if [ ! -f "$program" ] || [ ! -x "$program" ]; then
    if command -v rt >/dev/null; then
        say "$program is not there: run 'rt run' in crates/$1 first, which proves and builds it"
    else
        say "$program is not there, and rt is not on PATH: it is the command of the Rattle toolchain, which proves and builds it (docs/INSTALL.md)"
    fi
    exit 1
fi
exec "$program" "${@:2}"
