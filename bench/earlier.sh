#!/usr/bin/env bash
# bench/earlier.sh COMMIT: the tree of an earlier commit that this toolchain proves, in a folder of its own, whose name it
# prints. It stands outside the repository, where `rt ci` would refuse its sources.
set -euo pipefail
cd "$(dirname "$0")/.."
commit=$(git rev-parse --verify --quiet "$1^{commit}") || {
    echo "bench/earlier.sh: this repository has no commit $1" >&2
    exit 1
}
tree=${XDG_CACHE_HOME:-$HOME/.cache}/fermion/against/$commit
if [ ! -d "$tree" ]; then
    mkdir -p "$tree"
    git archive "$commit" | tar -x -C "$tree"
    cp tools/shared_object.sh "$tree/tools/" # which keeps the archive that it links
fi
echo "$tree"
