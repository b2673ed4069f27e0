#!/usr/bin/env bash
# Times `sectors` of an image of about 98 MB (RDP 5, 1,000 stripes of 4,096-byte symbols, device 0 lost) with one symbol
# besides that cannot be read in each stripe, at a place drawn from a fixed seed, on the proved program, by turns with its
# `rebuild` by one worker; and `sectors` of an image of 16,000 stripes of 8-byte symbols with a list of about 1 MB, which
# names all symbols of two devices, by turns with one that is empty. It prints the least times and their ratios, and the
# most memory that the first held beside its output.
# Usage: bench/sectors.sh [RUNS]; build the program first, by ./minread or by rt run in crates/minread. It needs python3.
# shellcheck source=bench/images.sh
. "$(dirname "${BASH_SOURCE[0]}")/images.sh"
stripes=1000
bytes=4096
lost=4
small=16000

image whole "$stripes" "$bytes"
image small "$small" 8
overwritten "$folder/whole" "$folder/lost" "$stripes" "$bytes" "$lost"
python3 - "$folder" "$stripes" "$bytes" "$symbols" "$lost" "$small" <<'PY'
import random, sys
folder, (stripes, size, symbols, lost, small) = sys.argv[1], map(int, sys.argv[2:])
random.seed(20261202)
image = bytearray(open(folder + '/lost', 'rb').read())
with open(folder + '/bad', 'w') as bad:
    for s in range(stripes):
        symbol = random.randrange(lost, symbols)
        bad.write('%d %d\n' % (s, symbol))
        at = 32 + (s * symbols + symbol) * size
        image[at:at + size] = bytes(size)
open(folder + '/damaged', 'wb').write(image)
image = bytearray(open(folder + '/small', 'rb').read())
with open(folder + '/long', 'w') as bad:
    for s in range(small):
        for symbol in range(2 * lost):
            bad.write('%d %d\n' % (s, symbol))
        at = 32 + s * symbols * 8
        image[at:at + 16 * lost] = bytes(16 * lost)
open(folder + '/holed', 'wb').write(image)
open(folder + '/none', 'w').close()
PY

for _ in $(seq "$runs"); do
  timed sectors /dev/null "$program" sectors "$matrix" "$folder/damaged" 0 "$folder/bad"
  cmp "$folder/out" "$folder/whole"
  cp "$folder/report" "$folder/lines"
  timed rebuild /dev/null "$program" rebuild "$matrix" "$folder/lost" 0 --workers 1
  cmp "$folder/out" "$folder/whole"
  timed long /dev/null "$program" sectors "$matrix" "$folder/holed" none "$folder/long"
  cmp "$folder/out" "$folder/small"
  timed none /dev/null "$program" sectors "$matrix" "$folder/small" none "$folder/none"
  cmp "$folder/out" "$folder/small"
done
cat "$folder/lines"
awk -v sectors="$(least sectors)" -v rebuild="$(least rebuild)" -v long="$(least long)" -v none="$(least none)" \
  -v size="$(stat -c %s "$folder/whole")" -v list="$(stat -c %s "$folder/long")" \
  'BEGIN {
    printf "sectors of %d bytes %.3f s, rebuild by one worker %.3f s, ratio %.2f\n", \
      size, sectors / 1e9, rebuild / 1e9, sectors / rebuild
    printf "a list of %d bytes %.3f s, an empty one %.3f s\n", list, long / 1e9, none / 1e9
  }'
python3 - "$program" "$matrix" "$folder" <<'PY'
import os, resource, subprocess, sys
program, matrix, folder = sys.argv[1:]
subprocess.run([program, "sectors", matrix, folder + "/damaged", "0", folder + "/bad"], stdout=subprocess.DEVNULL,
               stderr=subprocess.DEVNULL, check=True)
held = resource.getrusage(resource.RUSAGE_CHILDREN).ru_maxrss * 1024
print("memory %.1f MB, beside the output %.1f MB" % (held / 1e6, (held - os.path.getsize(folder + "/whole")) / 1e6))
PY
