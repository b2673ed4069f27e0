#!/usr/bin/env bash
# Times tools/rebuild-array of six device files of 512 MiB (RDP 5, 32,768 stripes of 4,096-byte symbols, one data device
# lost) on the proved programs, with one image at a time and with four beside each other, by turns with `cp` of the six
# files; the files are in the page cache. It prints the least times and their ratios: processor time, and wall time of four
# images at a time, which wants four idle processors. The wall time is taken once as it is and once without `sync`, which
# waits for the disk as `cp` does not. And what was read of devices, beside what whole rows would have read.
# Usage: bench/array.sh [RUNS] [STRIPES]; build the programs first, by rt ci or by rt run in crates/minread and
# crates/arrays. It needs parallel, and 7 GB of disk and of memory for the page cache.
# shellcheck source=bench/images.sh
. "$(dirname "${BASH_SOURCE[0]}")/images.sh"
stripes=${2:-32768}
bytes=4096
lost=1
program=${PROGRAM:-$program}
arrays=${ARRAYS:-$top/crates/arrays/out/arrays}
export PROGRAM=$program ARRAYS=$arrays TMPDIR=$folder
devices=("$folder"/disk{0..5})

# The device files, made image by image, and the lost one under another name
make_devices() {
  local first count
  for ((first = 0; first < stripes; first += 2048)); do
    count=$((stripes - first < 2048 ? stripes - first : 2048))
    image part "$count" "$bytes"
    "$arrays" scatter "$matrix" "$first" 0,1,2,3,4,5 "${devices[@]}" <"$folder/part" 2>"$folder/report"
  done
  rm "$folder/part" "$folder/data"
  mv "${devices[lost]}" "$folder/gone"
}

# NAME COMMAND..: adds the seconds of the command, wall and processor, to those of NAME
measured() {
  local name=$1 TIMEFORMAT='%R %U %S'
  shift
  { time "$@" >"$folder/out" 2>"$folder/report"; } 2>"$folder/time"
  awk '{ print $1, $2 + $3 }' "$folder/time" >>"$folder/$name.times"
}

copy() { cp "$folder"/disk[0-5] "$folder/gone" "$folder/copies"; }

# NAME JOBS: a run with so many images at a time; the file that it makes is looked at, and goes
rebuild() {
  rm -rf "$folder/run" "${devices[lost]}"
  measured "$1" "$top/tools/rebuild-array" "$matrix" "$bytes" "$lost" "$folder/run" "${devices[@]}" -- --jobs "$2"
  cp "$folder/out" "$folder/sums"
  cmp "$folder/gone" "${devices[lost]}"
  rm "${devices[lost]}"
}

# NAME COLUMN: the least of its times, 1 wall and 2 processor
least_of() { cut -d ' ' -f "$2" "$folder/$1.times" | sort -n | head -n 1; }

make_devices
mkdir "$folder/copies" "$folder/quick"
printf '#!/bin/sh\n' >"$folder/quick/sync"
chmod +x "$folder/quick/sync"
for _ in $(seq "$runs"); do
  measured cp copy
  rm "$folder"/copies/*
  rebuild one 1
  rebuild four 4
  PATH=$folder/quick:$PATH rebuild quick 4
done
cat "$folder/sums"
awk -v sums="$(cat "$folder/sums")" -v cp="$(least_of cp 1)" -v cp_processor="$(least_of cp 2)" \
  -v one="$(least_of one 1)" -v one_processor="$(least_of one 2)" -v four="$(least_of four 1)" \
  -v four_processor="$(least_of four 2)" -v quick="$(least_of quick 1)" 'BEGIN {
    split(sums, word, " ")
    printf "cp of the six files %.2f s, of processor time %.2f s\n", cp, cp_processor
    printf "one image at a time %.2f s, of processor time %.2f s, ratio %.2f\n", one, one_processor, one_processor / cp_processor
    printf "four at a time %.2f s, ratio %.2f, of processor time %.2f s, ratio %.2f\n", four, four / cp, four_processor, \
      four_processor / cp_processor
    printf "four at a time without sync %.2f s, ratio %.2f\n", quick, quick / cp
    printf "read of devices %.2f of whole rows\n", word[6] / word[8]
  }'
