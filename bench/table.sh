#!/usr/bin/env bash
# Times `table` on the proved program by one worker and by four, by turns, and prints the least times and the memory used.
# Usage: bench/table.sh [RUNS]; build the program first, by ./minread or by rt run in crates/minread.
set -eu
runs=${1:-5}
top=$(cd "$(dirname "${BASH_SOURCE[0]}")/.." && pwd)
program=$top/crates/minread/out/minread
folder=$(mktemp -d)
trap 'rm -rf "$folder"' EXIT

# WORKERS MATRIX BUDGET: adds the nanoseconds of a run to the file WORKERS.ns
timed() {
  local start end
  start=$(date +%s%N)
  "$program" table "$top/$2" --budget "$3" --workers "$1" >"$folder/table.$1"
  end=$(date +%s%N)
  echo $((end - start)) >>"$folder/$1.ns"
}

# WORKERS MATRIX BUDGET: the most memory of a run, in KiB
memory() {
  (command -v /usr/bin/time >/dev/null &&
    /usr/bin/time -f %M "$program" table "$top/$2" --budget "$3" --workers "$1" 2>&1 >/dev/null | tail -n 1) || echo '-'
}

least() { sort -n "$folder/$1.ns" | head -n 1; }

# NAME MATRIX BUDGET: a line on the runs with that matrix and budget
measure() {
  rm -f "$folder"/*.ns
  for _ in $(seq "$runs"); do
    timed 1 "$2" "$3"
    timed 4 "$2" "$3"
    cmp "$folder/table.1" "$folder/table.4"
  done
  awk -v name="$1" -v one="$(least 1)" -v four="$(least 4)" -v rows="$(wc -l <"$folder/table.4")" \
    -v memory="$(memory 1 "$2" "$3")" -v memories="$(memory 4 "$2" "$3")" \
    'BEGIN {
      printf "%-10s %d rows; one worker %.4f s, %s KiB; four %.4f s, %s KiB; ratio %.2f\n", \
        name, rows, one / 1e9, memory, four / 1e9, memories, four / one
    }'
}

measure "RDP 5" examples/rdp5.matrix 65536
measure "EVENODD 5" examples/evenodd5.matrix 65536
measure "RDP 11" examples/rdp11.matrix 524288
