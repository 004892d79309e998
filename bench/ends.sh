#!/usr/bin/env bash
# Has resources of an end over a real file, in which 1,000, 100,000 and 1,000,000 cells are stored, put a cell, prepare and
# commit, one after the other; and appends the records of as many to a journal in such a file, with no end. Prints how many
# prepares and commits there were in a second, the ratio of the two times, and how the first grows with the cells. Loads aren't
# counted. Run it anywhere; it builds the program first. How many resources there are, the folder of the files, and how many
# rounds there are, may be given as arguments. In each round both are made, one right after the other, on copies of the same
# file: a ratio is the median of the rounds' ratios, and a time the median of their times. Then resources put 65,536 cells,
# 64 each or 1,024 each, and 1,024 each while 4,095 others are unfinished: prints the ratios of the times. At last ends are
# loaded whose journals have 1 MB and 8 MB of stored cells: prints the ratio of the times per octet. What the load of an end
# without cells takes is taken off.
set -euo pipefail
. "$(dirname "$0")/timing.sh"
count=${1:-500}
folder=${2:-$work}
rounds=${3:-9}
file=$folder/ends.bench
trap 'rm -rf "$work" "$file"' EXIT
scratch journal_bench journal_bench.txt decision_journal ior_refs ots_model ots_outside recovery_coord resource_end

# stored CELLS: the journal of an end in which so many cells are stored, 1,000 by each resource.
stored() {
  python3 - "$1" <<'PY'
import struct, sys
cells = int(sys.argv[1])

def record(payload):
    return b"\1" + struct.pack(">I", len(payload)) + payload

octets = bytearray(b"OTSJ" + struct.pack(">IQ", 1, 1) + record(b"\1" + struct.pack(">I", 1)))
for number in range(cells // 1000):
    puts = b"".join(struct.pack(">QQ", 1000 * number + cell, 1) for cell in range(1000))
    octets += record(b"\7" + struct.pack(">IQH", 1, number + 1, 1000) + puts)
sys.stdout.buffer.write(octets + b"\0")
PY
}

# Each line has a round's cells, and its two times. In every other round the appends come first.
for cells in 1000 100000 1000000; do
  stored "$cells" >"$work/octets"
  for round in $(seq "$rounds"); do
    kinds="ends cells"
    [ $((round % 2)) = 0 ] && kinds="cells ends"
    for kind in $kinds; do
      cp "$work/octets" "$file"
      sync "$file"
      "$program" "$kind" "$file" "$count" >"$work/$kind"
    done
    echo "$cells $(cat "$work/ends") $(cat "$work/cells")"
  done
done | python3 -c '
import statistics, sys
count = int(sys.argv[1])
rounds = {}
for line in sys.stdin:
    cells, ends, appends = map(int, line.split())
    rounds.setdefault(cells, []).append((ends, appends))
times = {cells: statistics.median(ends for ends, _ in each) for cells, each in rounds.items()}
for cells, each in rounds.items():
    speed = int(2 * count * 10**9 / times[cells])
    ratio = statistics.median(ends / appends for ends, appends in each)
    print(f"{cells:>9,} cells stored: {speed:,} prepares and commits in a second; ratio to the bare appends: {ratio:.2f}")
print(f"ratio of the time per prepare and commit, 1,000,000 cells to 1,000: {times[1000000] / times[1000]:.2f}")
' "$count"

# Each line has the three times of a round.
for round in $(seq "$rounds"); do
  for cells in 64 1024; do
    rm -f "$file"
    "$program" puts "$file" "$cells" >"$work/puts.$cells"
  done
  rm -f "$file"
  "$program" puts_beside "$file" 4095 >"$work/puts.beside"
  echo "$(cat "$work/puts.64") $(cat "$work/puts.1024") $(cat "$work/puts.beside")"
done | python3 -c '
import statistics, sys
rounds = [tuple(map(int, line.split())) for line in sys.stdin]
print(f"time per put: {statistics.median(many for few, many, beside in rounds) // 65536} ns where a resource puts 1,024 cells")
print(f"ratio of the time per put, 1,024 cells of a resource to 64: {statistics.median(many / few for few, many, beside in rounds):.2f}")
print(f"ratio of the time per put, beside 4,095 unfinished resources to none: {statistics.median(beside / many for few, many, beside in rounds):.2f}")
'

# Each line has the three times of a round.
for cells in 0 62000 496000; do
  stored "$cells" >"$work/octets.$cells"
done
for round in $(seq "$rounds"); do
  for cells in 0 62000 496000; do
    cp "$work/octets.$cells" "$file"
    sync "$file"
    "$program" load_end "$file" 0 >"$work/load.$cells"
  done
  echo "$(cat "$work/load.0") $(cat "$work/load.62000") $(cat "$work/load.496000")"
done | python3 -c '
import statistics, sys
rounds = [tuple(map(int, line.split())) for line in sys.stdin]
ratio = statistics.median((most - empty) / 8 / max(1, few - empty) for empty, few, most in rounds)
print(f"ratio of the time of a load per octet, stored cells, 8 MB to 1 MB: {ratio:.2f}")
'
