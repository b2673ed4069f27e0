#!/usr/bin/env bash
# Times `leastplan` on the proved program by one worker and by four, by turns, and prints for each loss the least times, the
# most memory and the plan line. The answer is the same by one worker and by four, or the bench ends with 1.
# Usage: bench/leastplan.sh [RUNS]; build the program first, by rt run in crates/leastplan.
# Aims on four idle processors: RDP 11, device 0, in at most 10 s and 64 MB by one worker, 4 s and 96 MB by four.
set -eu
runs=${1:-3}
top=$(cd "$(dirname "${BASH_SOURCE[0]}")/.." && pwd)
program=$top/crates/leastplan/out/leastplan
folder=$(mktemp -d)
trap 'rm -rf "$folder"' EXIT

# WORKERS MATRIX LOST: adds the seconds and the KiB of a run to the file WORKERS.runs
timed() {
  local start end most
  start=$(date +%s%N)
  if command -v /usr/bin/time >/dev/null; then
    /usr/bin/time -o "$folder/memory" -f %M "$program" "$top/$2" "$3" --workers "$1" >"$folder/plan.$1" 2>"$folder/report"
    most=$(cat "$folder/memory")
  else
    "$program" "$top/$2" "$3" --workers "$1" >"$folder/plan.$1" 2>"$folder/report"
    most=0
  fi
  end=$(date +%s%N)
  echo "$(((end - start) / 1000)) $most" >>"$folder/$1.runs"
}

# WORKERS: the least time in seconds and the most memory in MB
best() {
  sort -n "$folder/$1.runs" |
    awk 'NR == 1 { least = $1 } $2 > most { most = $2 } END { printf "%.3f s, %.1f MB", least / 1e6, most / 1024 }'
}

# NAME MATRIX LOST
measure() {
  rm -f "$folder"/*.runs
  for _ in $(seq "$runs"); do
    timed 1 "$2" "$3"
    timed 4 "$2" "$3"
    cmp "$folder/plan.1" "$folder/plan.4"
  done
  echo "$1: one worker $(best 1); four $(best 4); $(cat "$folder/report")"
}

measure "RDP 11, device 0" examples/rdp11.matrix 0
measure "RDP 7, devices 0 and 1" examples/rdp7.matrix 0,1
measure "EVENODD 7, devices 0 and 1" examples/evenodd7.matrix 0,1
measure "random 20x4x67, device 0" bench/random-20x4x67.matrix 0
