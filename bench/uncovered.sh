#!/usr/bin/env bash
# Times a whole run in which nothing is covered: registers in rings, each with gates in front of it, and one secret whose
# shares never meet. So the run is read, bound, simulated, unrolled, its cones are made and its formula is begun, and nothing
# is searched. Build the program first: `rt ci`, or `rt run` in crates/coco_check.
# Usage: bench/uncovered.sh [BITS [CYCLES]]; about 10000 bits and 100 cycles, which is 1,000,000 bits by cycles
set -eu
program=${PROGRAM:-$(cd "$(dirname "$0")/.." && pwd)/crates/coco_check/out/coco_check}
folder=$(mktemp -d /tmp/uncovered.XXXXXX)
trap 'rm -rf "$folder"' EXIT
cycles=${2:-100}
python3 - "$folder" "${1:-10000}" <<'PY'
import json
import sys

folder, bits = sys.argv[1], int(sys.argv[2])
rings = max(2, bits // 5)
number = {"clk": 2}
cells, nets = {}, {"clk": {"bits": [2]}}


def bit(name):
    if name not in number:
        number[name] = len(number) + 2
        nets[name] = {"bits": [number[name]]}
    return number[name]


def gate(name, kind, **inputs):
    pins = {pin: [bit(wire)] for pin, wire in inputs.items()}
    pins["Q" if kind == "$_DFF_P_" else "Y"] = [bit(name)]
    cells["c_" + name] = {"type": kind, "connections": pins}


for k in range(rings):
    # a register keeps its value through three gates: it is xored with 0, and with 1 twice
    gate("z%d" % k, "$_DFF_P_", C="clk", D="z%d" % k)
    gate("x%d" % k, "$_XOR_", A="q%d" % k, B="z%d" % k)
    gate("n%d" % k, "$_NOT_", A="x%d" % k)
    gate("m%d" % k, "$_NOT_", A="n%d" % k)
    gate("q%d" % k, "$_DFF_P_", C="clk", D="m%d" % k)
ports = {"clk": {"direction": "input", "bits": [2]}}
with open(folder + "/n.json", "w") as file:
    json.dump({"modules": {"m": {"ports": ports, "cells": cells, "netnames": nets}}}, file)
with open(folder + "/l.txt", "w") as file:
    file.write("clock clk\nsecret s 1 2\nreg q0 s.0\nreg q1 s.1\nmask m 32\n")
    for k in range(2, rings):
        file.write("reg q%d m[%d]\n" % (k, k % 32))
print("%d bits, %d bytes of netlist" % (len(number) - 1, len(json.dumps(cells))))
PY
/usr/bin/time -f '%e s, %M KB' "$program" --netlist "$folder/n.json" --labels "$folder/l.txt" --cycles "$cycles" > "$folder/report"
head -n 1 "$folder/report"
[ "$(head -n 1 "$folder/report")" = accepted ]
