#!/usr/bin/env bash
# Runs the built program once for each status that it can end with, and compares the status, standard output and
# standard error. Build the program first: `rt ci`, or `rt run` in crates/coco_check. Ends with status 1 where one differs.
set -u
top=$(cd "$(dirname "$0")/.." && pwd)
program=$top/crates/coco_check/out/coco_check
folder=$(mktemp -d /tmp/statuses.XXXXXX)
trap 'rm -rf "$folder"' EXIT
cp "$top"/examples/two-registers/* "$folder"
cd "$folder" || exit 1
wrong=0
usage="coco_check --netlist N --labels L [--program P] [--top M] [--order D] [--window W] [--cycles C] [--steps B] [--restart R] [--proof]"

# compare NAME STATUS FIRST_LINE ERROR_LINE: what the last run left in out, err and the variable status
compare() {
  local first error
  first=$(head -n 1 out)
  error=$(cat err)
  if [ "$status" = "$2" ] && [ "$first" = "$3" ] && [ "$error" = "$4" ]; then
    echo "ok: $1, status $2"
  else
    echo "wrong: $1: status $status, not $2; '$first', not '$3'; '$error', not '$4'"
    wrong=1
  fi
}

run() {
  "$program" "$@" >out 2>err
  status=$?
}

run --netlist accepted.json --labels accepted.txt
compare "an accepted run" 0 accepted ""
run --netlist rejected.json --labels rejected.txt
compare "a rejected run" 1 rejected ""
run --netlist=accepted.json --labels=accepted.txt --order=2
compare "two probes on two registers" 1 rejected ""
# four registers with the shares of two secrets: there is no finding, and no derivation of one line
flop='"c_%s":{"type":"$_DFF_P_","connections":{"C":[2],"D":[%d],"Q":[%d]}}'
{
  printf '{"modules":{"t":{"ports":{"clk":{"direction":"input","bits":[2]}},"cells":{'
  printf "$flop,$flop,$flop,$flop" a0 3 3 a1 4 4 b0 5 5 b1 6 6
  printf '},"netnames":{"clk":{"bits":[2]},"a0":{"bits":[3]},"a1":{"bits":[4]},"b0":{"bits":[5]},"b1":{"bits":[6]}}}}}'
} >four.json
printf 'clock clk\nsecret a 1 2\nsecret b 1 2\nreg a0 a.0\nreg a1 a.1\nreg b0 b.0\nreg b1 b.1\n' >four.txt
run --netlist four.json --labels four.txt --steps 1
compare "a run of which one line decides nothing" 2 undecided ""
run --netlist four.json --labels four.txt
compare "the same with more steps" 0 accepted ""
printf '{' >no.json
run --netlist no.json --labels accepted.txt
compare "a netlist that is no JSON" 3 "refused 101 not JSON" ""
run --netlist missing.json --labels accepted.txt
compare "a file that is not there" 4 "read fault missing.json" ""
if [ -w /dev/full ]; then
  : >out
  "$program" --netlist accepted.json --labels accepted.txt >/dev/full 2>err
  status=$?
  compare "a full output" 5 "" ""
fi
# 100 MB of blanks, under a limit of 96 MB of memory
head -c 100000000 /dev/zero | tr '\0' ' ' >large.json
(ulimit -v 98304 && exec "$program" --netlist large.json --labels accepted.txt >out 2>err)
status=$?
compare "a file for which there is no memory" 6 "" "no memory"
run --netlist accepted.json
compare "no label file" 7 "" "$usage"
run --netlist accepted.json --labels accepted.txt --order 65
compare "a number out of its range" 7 "" "$usage"
run --netlist accepted.json --labels accepted.txt --top $'\xff'
compare "a word that is no text" 7 "" "$usage"
# a call for which there is no memory: many long words, under the first limit that lets the program start
words=$(head -c 100000 /dev/zero | tr '\0' 'a')
many=()
for _ in $(seq 18); do many+=("$words"); done
for limit in $(seq 3072 1024 32768); do
  (ulimit -v "$limit" && exec "$program" "${many[@]}" >out 2>err)
  status=$?
  [ "$status" = 6 ] && break
done
compare "a call for which there is no memory" 6 "" "no memory"
exit "$wrong"
