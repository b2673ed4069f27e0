#!/usr/bin/env bash
# Times `convert` of an image of about 98 MB (RDP 5, 1,000 stripes of 4,096-byte symbols) on the proved program, by turns with
# `cp` of the image into a file, and prints the least times and their ratio.
# Usage: bench/convert.sh [RUNS]; build the program first, by ./minread or by rt run in crates/minread.
# shellcheck source=bench/images.sh
. "$(dirname "${BASH_SOURCE[0]}")/images.sh"
stripes=1000
bytes=4096

image image "$stripes" "$bytes"
for _ in $(seq "$runs"); do
  timed convert /dev/null "$program" convert "$matrix" "$folder/image"
  timed cp /dev/null cp "$folder/image" "$folder/copy"
done
awk -v convert="$(least convert)" -v cp="$(least cp)" -v size="$(stat -c %s "$folder/image")" \
  'BEGIN { printf "convert of %d bytes %.3f s, cp of the image %.3f s, ratio %.2f\n", size, convert / 1e9, cp / 1e9, convert / cp }'
