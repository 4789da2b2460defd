#!/usr/bin/env bash
# Prints the conflicts and the time of the solver, with the picker that takes the variable with most bumps, beside those
# of MiniSat and CaDiCaL where they are installed: for pigeonholes 6 to 8, which no values meet; for clauses of three
# variables by chance at the threshold, over 150 and 200 variables; and for each further formula whose file, in the
# DIMACS form, is named. All read the same files. Of a formula that can be met our solver tells no conflicts. Build the
# program first: `rt ci`, or `rt run` in crates/coco_bench.
# Usage: bench/solver.sh [FILE..]
set -eu
program="$(cd "$(dirname "$0")/.." && pwd)/crates/coco_bench/out/coco_bench"
folder=$(mktemp -d /tmp/solver.XXXXXX)
trap 'rm -rf "$folder"' EXIT
python3 - "$folder" <<'PY'
import random
import sys


def write(name, count, clauses):
    with open("%s/%s.cnf" % (sys.argv[1], name), "w") as handle:
        handle.write("p cnf %d %d\n" % (count, len(clauses)))
        for clause in clauses:
            handle.write(" ".join(map(str, clause)) + " 0\n")


for holes in (6, 7, 8):
    seat = lambda pigeon, hole: pigeon * holes + hole + 1
    clauses = [[seat(pigeon, hole) for hole in range(holes)] for pigeon in range(holes + 1)]
    for hole in range(holes):
        for second in range(holes + 1):
            clauses += [[-seat(first, hole), -seat(second, hole)] for first in range(second)]
    write("pigeonholes_%d" % holes, holes * (holes + 1), clauses)
for count in (150, 200):
    for seed in (1, 2, 3, 4):
        draw = random.Random(1000 * count + seed)
        clauses = []
        for _ in range(426 * count // 100):
            clauses.append([v * draw.choice((1, -1)) for v in sorted(draw.sample(range(1, count + 1), 3))])
        write("random_%d_%d" % (count, seed), count, clauses)
PY

timed() {
    echo "  $1"
    shift
    (time timeout 600 "$@") 2>&1 | grep -E 'variables|onflicts *:|conflicts: |^real|SATISFIABLE' || true
}

for file in "$folder"/*.cnf "$@"; do
    echo "$(basename "$file")"
    timed "coco_bench" "$program" formula "$file"
    for other in minisat cadical; do
        if command -v "$other" >/dev/null; then
            timed "$other" "$other" "$file"
        fi
    done
done
