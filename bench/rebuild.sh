#!/usr/bin/env bash
# Times `rebuild` of an image of about 98 MB (RDP 5, 1,000 stripes of 4,096-byte symbols, device 0 lost) on the proved
# program and one worker, by turns with `rebuild` of the same image with rotated codes, with `cp` of the image into a file
# and a read of the 49 MB that the plan reads, and prints the least times and their ratios. The images are made by `encode`
# and `convert`, and device 0 is overwritten.
# Usage: bench/rebuild.sh [RUNS]; build the program first, by ./minread or by rt run in crates/minread. It needs python3.
# shellcheck source=bench/images.sh
. "$(dirname "${BASH_SOURCE[0]}")/images.sh"
stripes=1000
bytes=4096
lost=4
read=$((stripes * 12 * bytes))

image whole "$stripes" "$bytes"
"$program" convert "$matrix" "$folder/whole" >"$folder/turned"
for name in whole turned; do
  overwritten "$folder/$name" "$folder/$name.lost" "$stripes" "$bytes" "$lost"
done

copy_and_read() {
  cp "$folder/whole.lost" "$folder/copy"
  head -c "$read" "$folder/whole.lost" >/dev/null
}

for _ in $(seq "$runs"); do
  timed rebuild /dev/null "$program" rebuild "$matrix" "$folder/whole.lost" 0 --workers 1
  cmp "$folder/out" "$folder/whole"
  tail -n 2 "$folder/report" >"$folder/lines"
  timed rotated /dev/null "$program" rebuild "$matrix" "$folder/turned.lost" 0 --workers 1
  cmp "$folder/out" "$folder/turned"
  timed cp /dev/null copy_and_read
done
cat "$folder/lines"
awk -v rebuild="$(least rebuild)" -v rotated="$(least rotated)" -v cp="$(least cp)" \
  -v size="$(stat -c %s "$folder/whole")" \
  'BEGIN {
    printf "rebuild of %d bytes %.3f s, cp of the image and a read of 49 MB %.3f s, ratio %.2f\n", \
      size, rebuild / 1e9, cp / 1e9, rebuild / cp
    printf "the same with rotated codes %.3f s, ratio to rebuild %.2f\n", rotated / 1e9, rotated / rebuild
  }'
