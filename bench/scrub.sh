#!/usr/bin/env bash
# Times `scrub` of an image of about 98 MB (RDP 5, 1,000 stripes of 4,096-byte symbols) on the proved program, by turns with
# `cat IMAGE | wc -c`, on all processors and on one, and prints the least times and their ratios, and the most memory that a
# scrub held.
# Usage: bench/scrub.sh [RUNS]; build the program first, by ./minread or by rt run in crates/minread. It needs python3.
# shellcheck source=bench/images.sh
. "$(dirname "${BASH_SOURCE[0]}")/images.sh"
stripes=1000
bytes=4096

# What stands before each command: nothing, or what keeps it on one processor
declare -A on=([all]='' [one]='taskset -c 0')

image image "$stripes" "$bytes"
for _ in $(seq "$runs"); do
  for where in all one; do
    # shellcheck disable=SC2086
    timed "scrub-$where" /dev/null ${on[$where]} "$program" scrub "$matrix" "$folder/image"
    echo "stripes $stripes bad 0" | cmp - "$folder/out"
    # shellcheck disable=SC2016,SC2086
    timed "count-$where" /dev/null ${on[$where]} sh -c 'cat "$1" | wc -c' sh "$folder/image"
  done
done
for where in all one; do
  awk -v where="$where" -v scrub="$(least "scrub-$where")" -v count="$(least "count-$where")" \
    -v size="$(stat -c %s "$folder/image")" \
    'BEGIN {
      printf "%s: scrub of %d bytes %.3f s, cat and wc of the image %.3f s, ratio %.2f\n", \
        where, size, scrub / 1e9, count / 1e9, scrub / count
    }'
done
python3 - "$program" "$matrix" "$folder/image" <<'PY'
import resource, subprocess, sys
program, matrix, image = sys.argv[1:]
subprocess.run([program, "scrub", matrix, image], stdout=subprocess.DEVNULL, check=True)
print("memory %.1f MB" % (resource.getrusage(resource.RUSAGE_CHILDREN).ru_maxrss / 1000))
PY
