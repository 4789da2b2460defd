#!/usr/bin/env bash
# Prints the time of a million calls of `forced` and of `live` of the cell table. Build the program first: `rt ci`,
# or `rt run` in crates/coco_bench.
set -eu
cd "$(dirname "$0")/.."
time crates/coco_bench/out/coco_bench cells 1000000
