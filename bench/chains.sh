#!/usr/bin/env bash
# Runs chains of masked and-gates at order 1 and prints of each the variables and clauses of its formula, the lines of its
# derivation, what `--proof` writes, the time and the memory. Where the counts of variables and clauses are known, they are
# compared. Build the program first: `rt ci`, or `rt run` in crates/coco_check.
# Usage: bench/chains.sh [STAGES ..]; 1 2 4 8 16 where none are named. Ends with status 1 where a count differs.
set -eu
here=$(cd "$(dirname "$0")" && pwd)
program=${PROGRAM:-$here/../crates/coco_check/out/coco_check}
folder=$(mktemp -d /tmp/chains.XXXXXX)
trap 'rm -rf "$folder"' EXIT
declare -A known=([1]="278 768" [2]="806 2242" [3]="1670 4688" [8]="11030 31498")
wrong=0
[ $# -gt 0 ] || set -- 1 2 4 8 16
for stages in "$@"; do
  python3 "$here/chain.py" "$folder" "$stages"
  cd "$folder"
  status=0
  /usr/bin/time -o time -f '%e s, %M KB' \
    "$program" --netlist n.json --labels whole.txt --cycles $((2 * stages + 1)) --proof >report || status=$?
  counts=$(awk '$1 == "p" { print $3, $4; exit }' report)
  lines=$(awk '$1 == "proof" { print $2; exit }' report)
  echo "$stages stages: $(head -n 1 report), variables and clauses $counts, $lines lines, $(wc -c <report) bytes, $(tail -n 1 time)"
  if [ -n "${known[$stages]:-}" ] && [ "$counts" != "${known[$stages]}" ]; then
    echo "wrong: $stages stages have ${known[$stages]}"
    wrong=1
  fi
done
exit $wrong
