#!/usr/bin/env bash
# Reads and writes the calls of ten operations, and a call with a transaction context of a growing number of parents, by
# the cases of crates/wire_rows, and prints calls per second, and how the time per octet grows with the context. Reading
# is that of the message and of the call in it, and writing likewise. Run it anywhere; it builds the program first. How
# many calls a row makes may be given as an argument.
set -euo pipefail
. "$(dirname "$0")/timing.sh"
calls=${1:-100000}
ots=$here/crates/wire_rows/out/wire_rows
(cd "$here/crates/wire_rows" && rt run </dev/null >/dev/null 2>&1) || true

# The case of a row: a call of an operation, or of `recreate` with so many parents, read or written so many times.
request() {
  python3 - "$1" "$2" "$3" <<'PY'
import struct, sys
name, part, count = sys.argv[1:]

def aligned(n, octets):
    return octets + bytes(-len(octets) % n)

def counted(octets, more):
    return aligned(4, octets) + struct.pack(">I", len(more)) + more

def number(octets, value):
    return aligned(4, octets) + struct.pack(">I", value)

def reference(octets, interface):
    octets = counted(octets, f"IDL:omg.org/CosTransactions/{interface}:1.0".encode() + b"\0")
    host = counted(b"\0\1\2", b"10.0.0.7\0")
    profile = counted(aligned(2, host) + struct.pack(">H", 2809), bytes(32)) + struct.pack(">I", 0)
    return counted(number(number(octets, 1), 0), profile)

def identity(octets, branch):
    octets = reference(reference(octets, "Coordinator"), "Terminator")
    octets = number(number(octets, 1330926385), 4)
    return counted(octets, struct.pack(">QIQI", 1, 1, 1, branch))

def context(octets, parents):
    octets = number(identity(number(octets, 300), parents), parents)
    for branch in reversed(range(parents)):
        octets = identity(octets, branch)
    return number(octets, 0)

within = [(0, context(b"\0", 0))]
keyed = [(0x4F545200, bytes(8) + struct.pack(">QQ", 1, 2))]
rows = {
    "create": ("F", [], number(b"", 30)),
    "get_terminator": ("C", [], b""),
    "get_coordinator": ("C", [], b""),
    "get_status": ("K", [], b""),
    "register_resource": ("K", keyed, reference(b"", "Resource")),
    "put": ("D", within, struct.pack(">QQ", 7, 10)),
    "prepare": ("R", [], b""),
    "commit": ("R", [], b""),
    "rollback": ("R", [], b""),
    "replay_completion": ("V", [], reference(b"", "Resource")),
}
if name.isdigit():
    name, (kind, contexts, body) = "recreate", ("F", [], context(b"", int(name)))
else:
    kind, contexts, body = rows[name]
content = struct.pack(">IB3xH2x", 1, 3, 0)
content = counted(content, b"OTS" + kind.encode() + struct.pack(">QIIQI", 1, 0, 0, 0, 0))
content = number(counted(content, name.encode() + b"\0"), len(contexts))
for id, octets in contexts:
    content = counted(number(content, id), octets)
if body:
    content = content + bytes(-(12 + len(content)) % 8) + body
message = b"GIOP\1\2\0\0" + struct.pack(">I", len(content)) + content
print(f"\n== call | hex | {part} {count}\n{message.hex()}")
PY
}

# row PART NAME..: calls that are read, or written, by operation or by parents.
row() {
  local part=$1
  shift
  make() { request "$1" "$part" "$calls"; }
  rows cases make "$@" | python3 -c '
import sys
calls = int(sys.argv[1])
rows = [line.split() for line in sys.stdin]
per = []
for name, input, took, _ in rows:
    octets, each = (int(input) - 20) // 2, int(took) / calls
    per.append((each, each / octets))
    print(f"{name:>18}: about {octets:>5} octets, {each:8.0f} ns per call, {1e9 / each:12,.0f} calls per second")
if rows[0][0].isdigit():
    print(f"ratio of the time per octet, {rows[-1][0]} parents to {rows[0][0]}: {per[-1][1] / per[0][1]:.2f}")
else:
    each = max(per)[0] / min(per)[0]
    print(f"ratio of the time per call, the slowest operation to the fastest: {each:.2f}")
' "$calls"
}

operations="create get_terminator get_coordinator get_status register_resource put prepare commit rollback replay_completion"
for part in reads writes; do
  echo "Calls by operation, $part:"
  row "$part" $operations
  echo "Calls of recreate by the parents in the context, $part:"
  row "$part" 0 4 16
done
