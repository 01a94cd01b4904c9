#!/bin/sh
# Times the library beside the unchanged Rust, every pair in one process and by turns, and prints the ratios that stand in
# docs/SPEED.md; then what has no counterpart in the Rust. oracle/README.md lists what the Rust needs.
#
#   ZIXY_SRC=<folder of zixy's sources> sh bench/run.sh
set -eu
root=$(cd "$(dirname "$0")/.." && pwd)
sh "$root/oracle/build.sh"
library=$("$root/tools/shared_object.sh" | tail -n 1)
echo "the library: ${library#*: }"
library=${library%%: *}
sh "$root/oracle/bench_mul.sh" "$library"
for program in add commutator n_body; do
    echo "== $program"
    "$root/oracle/build/unchanged/target/release/bench_$program" "$library"
done
echo "== elements, projected matrices and exchange counts"
"$root/bench/exchanges.sh"
echo "== the sort, on an order made against it"
python3 "$root/bench/against_sort.py"
echo "== a prepared list of float terms, from Python"
python3 "$root/bench/float_terms.py"
echo "== what each call costs"
"$root/bench/costs.sh"
echo "== ladder text, in and out"
"$root/bench/text.sh"
echo "== the shelf"
"$root/bench/shelf.sh"
