#!/usr/bin/env bash
# Loads journals in a file in which 1,024 and 8,192 decisions stand, each with 4 and then with 64 registrations, tells each word
# again and hears its answer, until all decisions are complete. The load isn't counted. Prints the ratio of the times per word
# between the two sizes. Run it anywhere; it builds the program first. Each time is the least of five.
set -euo pipefail
. "$(dirname "$0")/timing.sh"
file=$work/journal.bench
scratch journal_bench journal_bench.txt decision_journal ior_refs ots_model ots_outside recovery_coord resource_end

# journal COUNT REGISTRATIONS: a journal of so many decisions, each with so many registrations of 40 octets.
journal() {
  python3 - "$1" "$2" <<'PY'
import struct, sys
count, registrations = map(int, sys.argv[1:])

def record(payload):
    return b"\1" + struct.pack(">I", len(payload)) + payload

octets = bytearray(b"OTSJ" + struct.pack(">IQ", 1, 1) + record(b"\1" + struct.pack(">I", 1)))
for generation in range(1, count + 1):
    tree = b"\2" + struct.pack(">IIQ", 1, 0, generation) + bytes(18) + struct.pack(">H", registrations)
    named = b"".join(struct.pack(">IH", index, 40) + bytes(40) for index in range(1, registrations + 1))
    octets += record(tree + named)
sys.stdout.buffer.write(octets + b"\0")
PY
}

# least WORDS: the least time of five, from the same journal each time.
least() {
  for _ in 1 2 3 4 5; do
    cp "$work/octets" "$file"
    "$program" retells "$file" "$1"
  done | sort -n | head -1
}

for registrations in 4 64; do
  for count in 1024 8192; do
    journal "$count" "$registrations" >"$work/octets"
    words=$((count * registrations))
    echo "$words $(least "$words")"
  done >"$work/times"
  python3 -c '
import sys
(few, told), (most, tells) = (map(int, line.split()) for line in open(sys.argv[2]))
one, many = told / few, tells / most
print(f"ratio of the time per word, {sys.argv[1]} registrations, 8,192 decisions to 1,024: {many / one:.2f}")
' "$registrations" "$work/times"
done
