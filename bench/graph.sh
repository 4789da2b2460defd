#!/usr/bin/env bash
# Prints the time and the memory of building and settling the graph of a chain of 1,000,000 inverters, the last of which
# stands first in the netlist. Build the program first: `rt ci`, or `rt run` in crates/coco_bench.
# Usage: bench/graph.sh [INVERTERS]
set -eu
program="$(cd "$(dirname "$0")/.." && pwd)/crates/coco_bench/out/coco_bench"
count=${1:-1000000}
if [ -x /usr/bin/time ]; then
    /usr/bin/time -f '%e s, %M KiB' "$program" inverters "$count"
else
    time "$program" inverters "$count"
fi
