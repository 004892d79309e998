#!/usr/bin/env bash
# Shows streams of about 1 MB and 32 MB of requests and replies, and streams of about 8 MB whose messages, of 2,000 up to
# 64,000 octets, come in Fragments of 8 octets, one after another or eight at once; behind whose type_id and operation, of
# 2,000 up to 64,000 octets, come Fragments without octets; and of which eight are unfinished, and the oldest is ended by
# a Fragment without octets. Shows streams of about 1 MB that come one octet at a time, of messages of 24 up to 64,000
# octets, and of messages of 2,000 up to 64,000 octets in Fragments of 8 octets, by cases of crates/ots_rows. Prints octets
# per second and how the time per octet grows, from each row to the next one and from the first to the last. Run it
# anywhere; it builds the programs first. Sizes of the first streams in octets may be given as arguments.
set -euo pipefail
. "$(dirname "$0")/timing.sh"
[ $# -gt 0 ] || set -- 1000000 32000000
build show
(cd "$here/crates/ots_rows" && rt run </dev/null >/dev/null 2>&1) || true

# What the streams are made of, and the case of ots_rows in which one comes one octet at a time.
parts=$(cat <<'PY'
import struct, sys

def part(order, more, kind, content):
    flags = (order == "<") + 2 * more
    return b"GIOP\1\2" + bytes([flags, kind]) + struct.pack(order + "I", len(content)) + content

def aligned(n, content):
    return content + bytes(-(12 + len(content)) % n)

def counted(order, content, octets):
    return aligned(4, content) + struct.pack(order + "I", len(octets)) + octets

def with_contexts(order, content, contexts):
    content = aligned(4, content) + struct.pack(order + "I", len(contexts))
    for id, octets in contexts:
        content = counted(order, aligned(4, content) + struct.pack(order + "I", id), octets)
    return content

def with_body(content, body):
    return aligned(8, content) + body if body else content

def request(order, id, key, operation, contexts, body):
    content = struct.pack(order + "IB3xH", id, 3, 0)
    content = counted(order, counted(order, content, key), operation + b"\0")
    return part(order, False, 0, with_body(with_contexts(order, content, contexts), body))

def reply(order, id, contexts, body):
    content = with_contexts(order, struct.pack(order + "II", id, 0), contexts)
    return part(order, False, 1, with_body(content, body))

def reply_in_parts(order, id, body):
    half = len(body) // 2
    first = with_contexts(order, struct.pack(order + "II", id, 0), [])
    number = struct.pack(order + "I", id)
    return part(order, True, 1, first) + part(order, True, 7, number + body[:half]) + part(order, False, 7, number + body[half:])

def print_case(stream):
    print("\n== show | pieces 1 | hex | last 1")
    print(stream.hex())
PY
)

# A stream of about that many octets: again and again the recorded messages without the CloseConnection at their end,
# requests and replies with small and large bodies in both byte orders, and a reply in three parts.
mixed() {
  python3 -c "$parts"'
size = int(sys.argv[1])
recorded = open(sys.argv[2], "rb").read()
messages = [recorded[:-12]]
id = 100
for order in "<", ">":
    for length in 0, 4, 100, 4000:
        id += 1
        context = (1, bytes(12))
        messages.append(request(order, id, bytes(range(32)), b"register_resource", [context], bytes(length)))
        messages.append(reply(order, id, [context] if length else [], bytes(length)))
    messages.append(reply_in_parts(order, id, bytes(800)))
round = b"".join(messages)
for _ in range(max(1, size // len(round))):
    sys.stdout.buffer.write(round)
' "$1" "$here/examples/recorded.giop"
}

# A stream of about 8 MB of requests of about that many octets, each in Fragments of 8 octets: a long operation, a long
# context and a body; and a target with many profiles.
fragments() {
  python3 -c "$parts"'
size = int(sys.argv[1])

def in_parts(content):
    number = content[:4]
    first, rest = content[:28], content[28:]
    pieces = [rest[i:i + 8] for i in range(0, len(rest), 8)]
    yield part("<", True, 0, first)
    for piece in pieces[:-1]:
        yield part("<", True, 7, number + piece)
    yield part("<", False, 7, number + pieces[-1])

def profiles(count):
    content = struct.pack("<IB3xH", 1, 3, 2)
    content = aligned(4, content) + struct.pack("<I", 0)
    content = counted("<", content, b"IDL:x:1.0\0")
    content = aligned(4, content) + struct.pack("<I", count)
    return content + struct.pack("<II", 9, 0) * count

third = size // 3
long = counted("<", counted("<", struct.pack("<IB3xH", 1, 3, 0), b"key"), bytes([97]) * third + b"\0")
long = with_body(with_contexts("<", long, [(1, bytes(third))]), bytes(third))
many = with_contexts("<", counted("<", profiles(size // 8), b"op\0"), [])
round = b"".join(b"".join(in_parts(content)) for content in (long, many))
for _ in range(max(1, 8000000 // len(round))):
    sys.stdout.buffer.write(round)
' "$1"
}

# A stream of about 8 MB of requests that stand still behind a type_id, or behind an operation, of about that many octets:
# Fragments without octets come, an eighth as many as it has octets, and then the rest of the request.
standing_still() {
  python3 -c "$parts"'
size = int(sys.argv[1])

def in_parts(content, rest):
    number = content[:4]
    ahead = -(12 + len(content)) % 8
    yield part("<", True, 0, content + rest[:ahead])
    for _ in range(size // 8):
        yield part("<", True, 7, number)
    yield part("<", False, 7, number + rest[ahead:])

def reference(type_id):
    content = aligned(4, struct.pack("<IB3xH", 1, 3, 2)) + struct.pack("<I", 0)
    return counted("<", content, type_id)

text = bytes([97]) * (size - 1) + b"\0"
behind_type_id = struct.pack("<I", 0) + struct.pack("<I", 4) + b"opn\0" + struct.pack("<I", 0)
behind_operation = struct.pack("<III", 1, 6, 0)
streams = (
    (reference(text), bytes(-(12 + len(reference(text))) % 4) + behind_type_id),
    (counted("<", counted("<", struct.pack("<IB3xH", 1, 3, 0), b"key"), text), behind_operation),
)
round = b"".join(b"".join(in_parts(content, rest)) for content, rest in streams)
for _ in range(max(1, 8000000 // len(round))):
    sys.stdout.buffer.write(round)
' "$1"
}

# A stream of about 8 MB of replies of about that many octets, eight of which are unfinished at once: each comes in
# Fragments of 8 octets, one of each reply in turn, and where a reply ends the next one of its number begins.
eight_at_once() {
  python3 -c "$parts"'
size = int(sys.argv[1])
ids = range(8)
first = [part("<", True, 1, struct.pack("<III", id, 0, 0)) for id in ids]
piece = [part("<", True, 7, struct.pack("<I", id) + bytes(8)) for id in ids]
last = [part("<", False, 7, struct.pack("<I", id) + bytes(8)) for id in ids]
left = [size * (id + 1) // 64 for id in ids]
stream = first[:]
for _ in range(8000000 // len(b"".join(piece))):
    for id in ids:
        left[id] -= 1
        if left[id] > 0:
            stream.append(piece[id])
        else:
            stream += last[id], first[id]
            left[id] = size // 8
sys.stdout.buffer.write(b"".join(stream + last))
' "$1"
}

# A stream of about 8 MB of replies of about that many octets in one part but for their ends: eight are unfinished at
# once, and the oldest is ended by a Fragment without octets each time, behind which the next one begins.
oldest_ends() {
  python3 -c "$parts"'
size = int(sys.argv[1]) // 8 * 8
first = [part("<", True, 1, struct.pack("<III", id, 0, 0) + bytes(size)) for id in range(8)]
last = [part("<", False, 7, struct.pack("<I", id)) for id in range(8)]
stream = first[:]
for i in range(8000000 // len(first[0] + last[0])):
    stream += last[i % 8], first[i % 8]
sys.stdout.buffer.write(b"".join(stream + [last[(i + 1 + k) % 8] for k in range(8)]))
' "$1"
}

# A case of ots_rows: a stream of about 1 MB of replies of that many octets, which comes one octet at a time.
octet_by_octet() {
  python3 -c "$parts"'
size = int(sys.argv[1])
message = reply("<", 1, [], bytes(size - 24))
print_case(message * (1000000 // size))
' "$1"
}

# Another one, of replies of about that many octets, each in Fragments of 8 octets.
fragments_octet_by_octet() {
  python3 -c "$parts"'
size = int(sys.argv[1])
first = part("<", True, 1, struct.pack("<III", 1, 0, 0))
piece = part("<", True, 7, struct.pack("<I", 1) + bytes(8))
last = part("<", False, 7, struct.pack("<I", 1) + bytes(8))
message = first + piece * (size // 8 - 1) + last
print_case(message * (1000000 // len(message)))
' "$1"
}

# octets_alone MAKE SIZE..: the rows of such cases, with the octets of each stream and the messages that were told of it.
octets_alone() {
  local make=$1 size took stream
  shift
  ots=$here/crates/ots_rows/out/ots_rows
  rows show "$make" "$@" | while read -r size _ took _; do
    stream=$(tail -n 1 "$work/$size.input")
    echo "$size $((${#stream} / 2)) $took $(awk '$1 == ".." { print $5 }' "$work/$size.lines")"
  done
}

# Prints rows. Of each but the first the time per octet is compared with that of the row before, and at the end that of the
# last row with that of the first.
report() {
  python3 -c '
import sys
rows = [tuple(map(int, line.split())) for line in sys.stdin]
before = None
for size, octets, took, shown in rows:
    grown = f", {took / octets / before:.2f} times the time per octet of the row before" if before else ""
    print(f"{size:>10} {octets:>10} octets, {shown:>7} messages: {took / 1e6:8.1f} ms, {octets / took * 1e9:14,.0f} octets per second{grown}")
    before = took / octets
(first_size, first, first_took, _), (last_size, last, last_took, _) = rows[0], rows[-1]
if len(rows) > 1:
    print(f"ratio of the time per octet, {last_size:,} to {first_size:,}: {(last_took / last) / (first_took / first):.2f}")
'
}

echo "Requests and replies, by the size of the stream:"
rows show mixed "$@" | report
echo "Messages in Fragments of 8 octets, by the size of a message:"
rows show fragments 2000 16000 64000 | report
echo "Eight messages at once in Fragments of 8 octets, by the size of a message:"
rows show eight_at_once 2000 16000 64000 | report
echo "Messages that stand still while Fragments without octets come, by the length of the field in front of these:"
rows show standing_still 2000 16000 64000 | report
echo "Messages in two parts, eight at once, of which the oldest ends by an empty Fragment, by the size of a message:"
rows show oldest_ends 16 2000 16000 64000 | report
echo "Messages that come one octet at a time, by the size of a message:"
octets_alone octet_by_octet 24 2000 16000 64000 | report
echo "Messages in Fragments of 8 octets that come one octet at a time, by the size of a message:"
octets_alone fragments_octet_by_octet 2000 16000 64000 | report
