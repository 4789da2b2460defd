#!/usr/bin/env python3
"""chain.py FOLDER STAGES [NETS]: writes a chain of masked and-gates as n.json into the folder, with three label files.

Each stage multiplies the shares of what the stage before gave with those of a secret bit of its own, with a fresh mask in
every cycle and registers behind the products. It takes twice as many cycles as it has stages, and one more. whole.txt binds
the secrets, open.txt the same registers to masks, so that nothing is secret, and bad.txt is refused. NETS further nets of
64 bits make the netlist's file long.
"""
import json
import sys

folder, stages = sys.argv[1], int(sys.argv[2])
further = int(sys.argv[3]) if len(sys.argv) > 3 else 0
number = {"clk": 2}
ports, cells = ["clk"], {}


def bit(name):
    return number.setdefault(name, len(number) + 2)


def cell(name, kind, **inputs):
    pins = {pin: [bit(wire)] for pin, wire in inputs.items()}
    pins["Q" if kind == "$_DFF_P_" else "Y"] = [bit(name)]
    cells["c_" + name] = {"type": kind, "connections": pins}


def flop(name, source):
    cell(name, "$_DFF_P_", C="clk", D=source)


def shares(name):
    """Two registers that keep the shares of a secret."""
    for i in (0, 1):
        flop("%s_%d" % (name, i), "%s_%d" % (name, i))
    return "%s_0" % name, "%s_1" % name


secrets, fresh = ["a"], []
x, y = shares("a")
for k in range(1, stages + 1):
    b, c = shares("b%d" % k)
    mask = "r%d" % k
    ports.append(mask)
    secrets.append("b%d" % k)
    fresh.append("fresh %s m%d" % (mask, k))
    for name, one, other in (("p", x, b), ("q", x, c), ("u", y, b), ("v", y, c)):
        cell("%s%d" % (name, k), "$_AND_", A=one, B=other)
    cell("s%d" % k, "$_XOR_", A="q%d" % k, B=mask)
    cell("t%d" % k, "$_XOR_", A="u%d" % k, B=mask)
    for name in "pstv":
        flop("%s%dr" % (name, k), "%s%d" % (name, k))
    cell("e%d" % k, "$_XOR_", A="p%dr" % k, B="s%dr" % k)
    cell("f%d" % k, "$_XOR_", A="t%dr" % k, B="v%dr" % k)
    flop("c%d_0" % k, "e%d" % k)
    flop("c%d_1" % k, "f%d" % k)
    x, y = "c%d_0" % k, "c%d_1" % k
nets = {name: {"bits": [n]} for name, n in number.items()}
for k in range(further):
    nets["bus%d" % k] = {"bits": [2 + (k + i) % len(number) for i in range(64)]}
module = {"ports": {name: {"direction": "input", "bits": [number[name]]} for name in ports}, "cells": cells, "netnames": nets}
with open(folder + "/n.json", "w") as handle:
    json.dump({"modules": {"t": module}}, handle)
declared = ["secret %s 1 2" % name for name in secrets]
starts = ["reg %s_%d %s.%d" % (name, i, name, i) for name in secrets for i in (0, 1)]
masks = ["mask %s_%d 1" % (name, i) for name in secrets for i in (0, 1)]
hidden = ["reg %s_%d %s_%d" % (name, i, name, i) for name in secrets for i in (0, 1)]
files = {"bad": ["no line"], "open": ["clock clk"] + masks + hidden + fresh, "whole": ["clock clk"] + declared + starts + fresh}
for name, lines in files.items():
    with open("%s/%s.txt" % (folder, name), "w") as handle:
        handle.write("".join(line + "\n" for line in lines))
