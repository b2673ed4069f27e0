# shellcheck shell=bash disable=SC2034
# What the benches of images share; they source it. Large pages are asked for as ./minread does it: GLIBC_TUNABLES= before
# the command runs a bench without them.
set -eu
export GLIBC_TUNABLES=${GLIBC_TUNABLES-glibc.malloc.hugetlb=1}
runs=${1:-5}
top=$(cd "$(dirname "${BASH_SOURCE[0]}")/.." && pwd)
program=$top/crates/minread/out/minread
matrix=$top/examples/rdp5.matrix
columns=16
symbols=24
folder=$(mktemp -d)
trap 'rm -rf "$folder"' EXIT

# NAME STRIPES BYTES: the image NAME of random data
image() {
  head -c $(($2 * columns * $3)) /dev/urandom >"$folder/data"
  "$program" encode "$matrix" "$folder/data" "$2" "$3" >"$folder/$1"
}

# NAME INPUT COMMAND..: adds the nanoseconds of the command to those of NAME; it writes the files `out`, `report` and `copy`
# anew, and freeing the old ones is not timed
timed() {
  local name=$1 input=$2 start end
  shift 2
  rm -f "$folder/out" "$folder/report" "$folder/copy"
  start=$(date +%s%N)
  "$@" <"$input" >"$folder/out" 2>"$folder/report"
  end=$(date +%s%N)
  echo $((end - start)) >>"$folder/$name.ns"
}

# NAME: the least of its times
least() { sort -n "$folder/$1.ns" | head -n 1; }

# WHOLE IMAGE STRIPES BYTES LOST: the file IMAGE, which is WHOLE with the first LOST symbols of each stripe overwritten
overwritten() {
  python3 - "$1" "$2" "$3" $((symbols * $4)) $(($5 * $4)) <<'PY'
import sys
whole, image, stripes, stripe, lost = sys.argv[1], sys.argv[2], *map(int, sys.argv[3:])
data = bytearray(open(whole, 'rb').read())
for s in range(stripes):
    at = 32 + s * stripe
    data[at:at + lost] = b'\xff' * lost
open(image, 'wb').write(data)
PY
}
