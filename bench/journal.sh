#!/usr/bin/env bash
# Appends decisions to a journal in a real file, and makes the bare writes and syncs of as many octets; does both for
# the Dones of the oldest decisions, in a journal in which few stand, and appends to it and makes Dones, of the oldest and
# of those in the middle, in one in which 8,000 stand; and loads journals of 1, 8 and 64 MB, of decisions and their Dones:
# each Done behind its decision, and each so far behind it that 8,000 stand. Prints how many appends there were in a second, and the ratios of the times:
# of appends and Dones to the bare writes and syncs, of each where many stand to the same where few do, and of the loads
# per octet. What a load of an empty journal takes, which is its syncs, is taken off. Run it anywhere; it builds the
# program first. How many decisions are appended, and the folder of the files, may be given as arguments. Each time is
# the least of five.
set -euo pipefail
. "$(dirname "$0")/timing.sh"
count=${1:-500}
folder=${2:-$work}
file=$folder/journal.bench
trap 'rm -rf "$work" "$file"' EXIT
scratch journal_bench journal_bench.txt decision_journal ior_refs ots_model ots_outside recovery_coord resource_end

# least TIMES: the least of these.
least() { sort -n | head -1; }

# Each run begins with no file. The two are made in turn.
for _ in 1 2 3 4 5; do
  for kind in appends bare; do
    rm -f "$file"
    "$program" "$kind" "$file" "$count" >>"$work/$kind"
  done
done

# journal SIZE STANDING: a journal of so many octets, of decisions with two registrations; once so many stand, each further
# one is followed by the Done of the oldest.
journal() {
  python3 - "$1" "$2" <<'PY'
import struct, sys
size, standing = map(int, sys.argv[1:])

def record(payload):
    return b"\1" + struct.pack(">I", len(payload)) + payload

def registration(index):
    return struct.pack(">IH", index, 116) + bytes(116)

tree = b"\2" + struct.pack(">IIQ", 1, 0, 1) + bytes(18) + struct.pack(">H", 2)
decision = record(tree + registration(1) + registration(2)) if standing == 0 else record(tree[:-2] + bytes(2))
octets = bytearray(b"OTSJ" + struct.pack(">IQ", 1, 1) + record(b"\1" + struct.pack(">I", 1)))
places, oldest = [], 0
while len(octets) + len(decision) + 11 <= size:
    places.append(len(octets))
    octets += decision
    if len(places) - oldest > standing:
        octets += record(b"\3" + struct.pack(">I", places[oldest]))
        oldest += 1
sys.stdout.buffer.write(octets + b"\0")
PY
}

# loads SIZE STANDING: the time of a load of such a journal.
loads() {
  journal "$1" "$2" >"$work/octets"
  for _ in 1 2 3 4 5; do
    cp "$work/octets" "$file"
    "$program" load "$file" 0
  done | least
}

# A journal of 19,200 octets, in which some 450 decisions without registrations stand, and one in which 8,000 do.
for size in 19200 336065; do
  journal "$size" 8000 >"$work/octets"
  for _ in 1 2 3 4 5; do
    for kind in appends dones middle_dones; do
      cp "$work/octets" "$file"
      "$program" "$kind" "$file" 100 >>"$work/$kind.$size"
    done
    rm -f "$file"
    "$program" bare_dones "$file" 100 >>"$work/bare_dones"
  done
done

for standing in 0 8000; do
  for size in 100 1000000 8000000 64000000; do
    loads "$size" "$standing" >>"$work/loads.$standing"
  done
done

python3 - "$(least <"$work/bare_dones")" $(for size in 19200 336065; do
  for kind in appends dones middle_dones; do least <"$work/$kind.$size"; done
done) <<'PY'
import sys
bare, appends, dones, middle, appends_many, dones_many, middle_many = map(int, sys.argv[1:])
print(f"ratio of the time of Dones to that of bare writes and syncs: {dones / bare:.2f}")
print(f"ratio of the time of an append, 8,000 decisions standing to 450: {appends_many / appends:.2f}")
print(f"ratio of the time of a Done of the oldest, 8,000 decisions standing to 450: {dones_many / dones:.2f}")
print(f"ratio of the time of a Done in the middle, 8,000 decisions standing to 450: {middle_many / middle:.2f}")
PY

python3 - "$count" "$(least <"$work/appends")" "$(least <"$work/bare")" $(cat "$work/loads.0") $(cat "$work/loads.8000") <<'PY'
import sys
count, appends, bare, *loads = map(int, sys.argv[1:])
print(f"{count * 10**9 // appends:,} appends in a second")
print(f"ratio of the time of appends to that of bare writes and syncs: {appends / bare:.2f}")
for what, times in ("each Done behind its decision", loads[:4]), ("8,000 decisions standing", loads[4:]):
    one, eight, most = (max(1, time - times[0]) for time in times[1:])
    print(f"ratio of the time of a load per octet, {what}, 8 MB to 1 MB: {eight / 8 / one:.2f}")
    print(f"ratio of the time of a load per octet, {what}, 64 MB to 8 MB: {most / 8 / eight:.2f}")
PY
