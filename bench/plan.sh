#!/usr/bin/env bash
# Times the search of `plan` on the proved program by one worker and by four, by turns, and prints the least times, the work
# done per second and the memory used.
# Usage: bench/plan.sh [RUNS]; build the program first, by ./minread or by rt run in crates/minread.
set -eu
runs=${1:-5}
top=$(cd "$(dirname "${BASH_SOURCE[0]}")/.." && pwd)
program=$top/crates/minread/out/minread
folder=$(mktemp -d)
trap 'rm -rf "$folder"' EXIT

# WORKERS MATRIX BUDGET: adds the nanoseconds of a run to the file WORKERS.ns
timed() {
  local start end
  start=$(date +%s%N)
  "$program" plan "$top/$2" 0 --budget "$3" --workers "$1" >"$folder/plan.$1" 2>"$folder/report"
  end=$(date +%s%N)
  echo $((end - start)) >>"$folder/$1.ns"
}

# WORKERS MATRIX BUDGET: the most memory of a run, in KiB
memory() {
  (command -v /usr/bin/time >/dev/null &&
    /usr/bin/time -f %M "$program" plan "$top/$2" 0 --budget "$3" --workers "$1" 2>&1 >/dev/null | tail -n 1) || echo '-'
}

least() { sort -n "$folder/$1.ns" | head -n 1; }

# NAME MATRIX BUDGET WORK: a line on the runs with that matrix and budget, which do that much work
measure() {
  rm -f "$folder"/*.ns
  for _ in $(seq "$runs"); do
    timed 1 "$2" "$3"
    timed 4 "$2" "$3"
    cmp "$folder/plan.1" "$folder/plan.4"
  done
  awk -v name="$1" -v one="$(least 1)" -v four="$(least 4)" -v work="$4" -v line="$(cat "$folder/report")" \
    -v memory="$(memory 1 "$2" "$3")" -v memories="$(memory 4 "$2" "$3")" \
    'BEGIN {
      printf "%-15s one worker %.4f s, %.0f work/s, %s KiB; four %.4f s, %s KiB; ratio %.2f; %s\n", \
        name, one / 1e9, work / (one / 1e9), memory, four / 1e9, memories, four / one, line
    }'
}

measure "RDP 7" examples/rdp7.matrix 4194304 94208
measure "EVENODD 7" examples/evenodd7.matrix 4194304 201664
measure "RDP 11" examples/rdp11.matrix 33554432 33554432
# prices from 1 to 1,000, drawn by Python's `random.seed(7)` and `random.randint(1, 1000)` for each device upwards
measure "priced RDP 7" bench/priced-rdp7.matrix 4194304 51584
# 20 devices of 4 symbols and 64 columns: each bit by Python's `random.seed(20)` and `random.choice('01')`, row by row
measure "random 20x4" bench/random-20x4.matrix 33554432 33554432
# the same of 67 columns by `random.seed(12)`: its search ends
measure "random 20x4x67" bench/random-20x4x67.matrix 33554432 23432704
