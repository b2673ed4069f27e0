#!/usr/bin/env bash
# Times the replies to a script on the proved program: an image of RDP 5 with 1,000 stripes of 4,096-byte symbols and 16,384
# asks, so 64 MiB of replies in 128 MiB of lines. By turns it runs `rebuild` without and with the script, the report into a
# file, and writes as many bytes by `head`. It prints the least times, and the ratio of what the replies add to the writing.
# A second script has 131,072 lines for an image of 8-byte symbols; its asks are all of lost symbols, so nothing is read for
# them.
# Usage: bench/replies.sh [RUNS]; build the program first, by ./minread or by rt run in crates/minread.
# shellcheck source=bench/images.sh
. "$(dirname "${BASH_SOURCE[0]}")/images.sh"

# the symbols of device 0, which is lost
lost=4

# ASKS STRIPES SYMBOLS: asks that go through the stripes and the first so many symbols
script() {
  awk -v asks="$1" -v stripes="$2" -v symbols="$3" 'BEGIN { for (k = 0; k < asks; k++) printf "%d %d\n", (k * 7) % stripes, k % symbols }'
}

# NAME ASKS: a line of the times for the image and the script NAME
measure() {
  local size
  for _ in $(seq "$runs"); do
    timed "$1.plain" /dev/null "$program" rebuild "$matrix" "$folder/$1" 0 --workers 1
    timed "$1.asked" "$folder/$1.script" "$program" rebuild "$matrix" "$folder/$1" 0 --workers 1
    size=$(stat -c %s "$folder/report")
    timed "$1.write" /dev/null head -c "$size" /dev/zero
  done
  awk -v name="$1" -v plain="$(least "$1.plain")" -v asked="$(least "$1.asked")" -v write="$(least "$1.write")" -v size="$size" -v asks="$2" \
    'BEGIN { printf "%s: %d asks, %d bytes of report, without %.3f s, with %.3f s, writing as many bytes %.3f s, ratio %.2f\n", name, asks, size, plain / 1e9, asked / 1e9, write / 1e9, (asked - plain) / write }'
}

image large 1000 4096
script 16384 1000 "$symbols" >"$folder/large.script"
measure large 16384
image small 1000 8
script 131072 1000 "$lost" >"$folder/small.script"
measure small 131072
