#!/usr/bin/env bash
# Times the reading of a label file of many lines: a netlist of one register, and a file whose lines are all read before the
# first of them is refused, since the netlist has no such net. Build the program first: `rt ci`, or `rt run` in
# crates/coco_check.
# Usage: bench/labels.sh [LINES]
set -eu
program=${PROGRAM:-$(cd "$(dirname "$0")/.." && pwd)/crates/coco_check/out/coco_check}
lines=${1:-100000}
folder=$(mktemp -d /tmp/labels.XXXXXX)
trap 'rm -rf "$folder"' EXIT
cat > "$folder/n.json" <<'JSON'
{"modules": {"m": {
  "ports": {"clk": {"direction": "input", "bits": [2]}},
  "cells": {"q": {"type": "$_DFF_P_", "connections": {"C": [2], "D": [3], "Q": [3]}}},
  "netnames": {"q": {"bits": [3]}, "clk": {"bits": [2]}}}}}
JSON
awk -v lines="$lines" 'BEGIN {
  print "version 2"
  for (k = 0; k < 60; k++) printf "secret s%d 32 2 # a secret in two shares\n", k
  for (k = 61; k < lines; k++) printf "reg unknown%d[%d] s%d.%d[%d]\n", k, k % 7, k % 60, k % 2, k % 32
}' > "$folder/l.txt"
echo "$(wc -l < "$folder/l.txt") lines, $(wc -c < "$folder/l.txt") bytes"
status=0
/usr/bin/time -f '%e s, %M KB' "$program" --netlist "$folder/n.json" --labels "$folder/l.txt" || status=$?
[ "$status" = 3 ]
