#!/usr/bin/env bash
# Times the parts of a run of the program: a chain of masked and-gates, each with a fresh mask in every cycle, for twice as
# many cycles as it has stages and one more. Three calls go ever farther: to a label file that is refused, so through the
# reading of the netlist and its graph; without secrets, so to the formula but not into the search; and the whole run.
# Build the program first: `rt ci`, or `rt run` in crates/coco_check.
# Usage: bench/parts.sh [STAGES [NETS]]; NETS further nets of 64 bits make the netlist's file long
set -eu
here=$(cd "$(dirname "$0")" && pwd)
program=${PROGRAM:-$here/../crates/coco_check/out/coco_check}
stages=${1:-8}
folder=$(mktemp -d /tmp/parts.XXXXXX)
trap 'rm -rf "$folder"' EXIT
python3 "$here/chain.py" "$folder" "$stages" "${2:-0}"
cd "$folder"
for part in bad open whole; do
  echo "$part: $(wc -c <n.json) bytes of JSON, $stages stages"
  (time "$program" --netlist n.json --labels "$part.txt" --cycles $((2 * stages + 1))) 2>&1 | grep -vE '^$|^user|^sys' || true
done
