#!/usr/bin/env bash
# Times `rebuild` of an image of about 98 MB (RDP 5, 1,000 stripes of 4,096-byte symbols, device 0 lost) on the proved program by
# one worker and by four, by four beside readers with no read and with 1,000 reads of lost symbols, by turns with `cp` of the image
# into a file, and prints the least times, their ratios, and the most memory that a rebuild by four held.
# Usage: bench/workers.sh [RUNS]; build the program first, by ./minread or by rt run in crates/minread. It needs python3.
# shellcheck source=bench/images.sh
. "$(dirname "${BASH_SOURCE[0]}")/images.sh"
stripes=1000
bytes=4096
lost=4

image whole "$stripes" "$bytes"
overwritten "$folder/whole" "$folder/image" "$stripes" "$bytes" "$lost"
for s in $(seq 0 $((stripes - 1))); do echo "$s $((s % lost))"; done >"$folder/asks"

# NAME SCRIPT WORDS..: times a rebuild, whose image has to be the whole one
rebuilt() {
  local name=$1 script=$2
  shift 2
  timed "$name" "$script" "$program" rebuild "$matrix" "$folder/image" 0 "$@"
  cmp "$folder/out" "$folder/whole"
}

for _ in $(seq "$runs"); do
  timed cp /dev/null cp "$folder/image" "$folder/copy"
  rebuilt one /dev/null --workers 1
  rebuilt four /dev/null --workers 4
  rebuilt live /dev/null --workers 4 --live
  rebuilt asked "$folder/asks" --workers 4 --live
done
awk -v cp="$(least cp)" -v one="$(least one)" -v four="$(least four)" -v live="$(least live)" -v asked="$(least asked)" \
  'BEGIN {
    printf "cp %.3f s; one worker %.3f s, ratio %.2f; four %.3f s, ratio %.2f\n", cp / 1e9, one / 1e9, one / cp, four / 1e9, four / cp
    printf "four beside readers %.3f s, ratio to four %.2f; with 1,000 reads %.3f s, ratio to none %.2f\n", live / 1e9, live / four, asked / 1e9, asked / live
  }'
python3 - "$program" "$matrix" "$folder/image" <<'PY'
import resource, subprocess, sys
program, matrix, image = sys.argv[1:]
words = [program, "rebuild", matrix, image, "0", "--workers", "4", "--live"]
subprocess.run(words, stdin=subprocess.DEVNULL, stdout=subprocess.DEVNULL, stderr=subprocess.DEVNULL, check=True)
print("memory %.1f MB" % (resource.getrusage(resource.RUSAGE_CHILDREN).ru_maxrss / 1000))
PY
