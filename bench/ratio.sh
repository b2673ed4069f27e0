#!/usr/bin/env bash
# Runs the proved program and plain.rs by turns for the loss of device 0 of row-diagonal parity for 11 with the largest
# budget, and prints the least elapsed time of each and their ratio.
# Usage: bench/ratio.sh [RUNS]; build the program first, by ./minread. It needs rustc.
set -eu
runs=${1:-5}
top=$(cd "$(dirname "${BASH_SOURCE[0]}")/.." && pwd)
folder=$(mktemp -d)
trap 'rm -rf "$folder"' EXIT
rustc -O --edition 2021 -o "$folder/plain" "$top/bench/plain.rs"
TIMEFORMAT=%R

# NAME WORDS..: adds the elapsed time of a run to the file NAME, and keeps the line that it printed last
timed() {
  local name=$1
  shift
  { time "$@" >"$folder/$name.out" 2>&1; } 2>>"$folder/$name.times"
  tail -n 1 "$folder/$name.out" >"$folder/$name.line"
}

for _ in $(seq "$runs"); do
  timed minread "$top/crates/minread/out/minread" plan "$top/examples/rdp11.matrix" 0 --budget 33554432 --workers 1
  timed plain "$folder/plain"
done
cmp "$folder/minread.line" "$folder/plain.line"
least() { sort -n "$folder/$1.times" | head -n 1; }
awk -v ours="$(least minread)" -v plain="$(least plain)" -v line="$(cat "$folder/plain.line")" \
  'BEGIN { printf "%s: minread %.3f s, plain Rust %.3f s, ratio %.2f\n", line, ours, plain, ours / plain }'
