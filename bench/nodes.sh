#!/usr/bin/env bash
# Makes calls to a node over a disk in memory, by cases of node_rows: questions to 256 families of 64 registrations each,
# to one family of 64, and to 256 families of 1, in turn; a further registration, which is refused, with 256 families of
# 64 registrations and with one; questions, each under a new key, and a commit that was answered later and comes again,
# behind a history of 1,000 and of 10,000 entries; answers to the word of 256 families that went out last, where each has
# one out and where it has 64; and commits of further transactions beside none and beside 255. And has the clock of a
# node go on whose journal holds 1,024 and 8,192 decisions with two registrations, for the first time and then again, so
# that each word goes out; whose journal holds 1,024 prepared records, which have no word to tell, of 2 and of 64
# registrations; and which has 16 and 256 finished families, of which each has a word to tell. Prints the time per call,
# how it grows with the families, the registrations, the history and the words, and how that per record and per family
# grows. A command is read each time that it is carried out. What comes before the calls isn't counted. Run it anywhere;
# it builds the program first. How many questions and refused registrations a row makes may be given as an argument: up
# to 12,000, for which a history has room. Each time is the least of five.
set -euo pipefail
. "$(dirname "$0")/timing.sh"
count=${1:-10000}
program=$here/crates/node_rows/out/node_rows
(cd "$here/crates/node_rows" && rt run </dev/null >/dev/null 2>&1) || true

# took ANSWER: the nanoseconds that the timed commands of a case take, whose lines stand in $work/lines: the least of
# five. What the last ones are answered must begin so.
took() {
  for _ in 1 2 3 4 5; do
    { printf '\n== calls: a bench\narea 67108864\n'; cat "$work/lines"; } | "$program" >"$work/told" 2>"$work/times"
    tail -1 "$work/told" | cut -c1-400 >"$work/last"
    grep -qF ": $1" "$work/last" || { cat "$work/last" "$work/times" >&2; return 1; }
    awk '{ sum += $1 } END { printf "%.0f\n", sum }' "$work/times"
  done | sort -n | head -1
}

# row NAME CALLS ANSWER: a row of the case whose lines come.
row() {
  cat >"$work/lines"
  local least
  least=$(took "$3")
  printf '%s\t%s\t%s\n' "$1" "$2" "$least"
}

# ratio WHAT TIMES: the times are rows of NAME CALLS NANOSECONDS. Prints the time of each row per call, and how it
# stands to that of the first.
ratio() {
  python3 -c '
import sys
rows = [line.rstrip("\n").split("\t") for line in open(sys.argv[2])]
per = [(name, int(took) / int(calls)) for name, calls, took in rows]
for name, each in per:
    print(f"{name:>38}: {each:10,.0f} ns per {sys.argv[1]}, {1e9 / each:12,.0f} per second")
for name, each in per[1:]:
    print(f"ratio of the time per {sys.argv[1]}, {name} to {per[0][0]}: {each / per[0][1]:.2f}")
' "$1" "$2"
}

# families COUNT REGISTRATIONS: makes so many families, each with so many registrations.
families() {
  echo "times $1 create 0"
  echo "times $(($1 * $2)) next, register_resource a"
}

# questions FAMILIES REGISTRATIONS.
questions() {
  families "$1" "$2"
  echo "times $1 next, get_status"
  echo "timed $((count / 2)) next, get_status, next, hash_transaction"
}

# refusals FAMILIES.
refusals() {
  families "$1" 64
  echo "times $1 next, register_resource a"
  echo "timed $count next, register_resource a"
}

# keyed BEFORE: questions under new keys, behind so many.
keyed() {
  echo "create 0"
  echo "times $1 anew, get_status"
  echo "timed 1000 anew, get_status"
}

# repeats BEFORE: a commit that comes again, behind so many questions under new keys.
repeats() {
  echo "create 0; register_resource a"
  echo "times $1 anew, get_status"
  echo "retry 1; commit; hear ok"
  echo "timed 10000 retry 1, commit"
}

# rollback BRANCH: in each of 256 families this subtransaction is made with a resource, and its rollback is begun.
rollback() {
  echo "times 256 next, branch 0, create_subtransaction, branch $1, register_resource a, rollback"
}

# few: words are answered of which each family has one out.
few() {
  echo "times 256 create 0"
  for word in {1..16}; do
    rollback "$word"
    echo "timed 256 next, answer $word ok"
  done
}

# many: words are answered of which each family has 64 out, and then fewer.
many() {
  echo "times 256 create 0"
  for word in {1..64}; do
    rollback "$word"
  done
  for word in {64..49}; do
    echo "timed 256 next, answer $word ok"
  done
}

# commits: transactions are committed, with two resources.
commits() {
  echo "timed 500 create 0, register_resource a, register_resource b, commit, hear votes_commit, hear votes_commit," \
    "hear ok, hear ok"
}

# journal KIND COUNT REGISTRATIONS: a journal of so many decisions or prepared records, each with so many registrations
# of 40 octets.
journal() {
  python3 - "$@" <<'PY'
import struct, sys

def record(payload):
    return b"\1" + struct.pack(">I", len(payload)) + payload

kind, count, each = sys.argv[1], int(sys.argv[2]), int(sys.argv[3])
number, before = (b"\2", bytes(18)) if kind == "decisions" else (b"\4", struct.pack(">H", 40) + bytes(40))
named = b"".join(struct.pack(">IH", index, 40) + bytes(40) for index in range(1, each + 1))
octets = bytearray(b"OTSJ" + struct.pack(">IQ", 1, 1) + record(b"\1" + struct.pack(">I", 1)))
for generation in range(1, count + 1):
    octets += record(number + struct.pack(">IIQ", 1, 0, generation) + before + struct.pack(">H", each) + named)
print("octets", (octets + b"\0").hex())
PY
}

# finished FAMILIES: families that are finished, of which each has a word to tell.
finished() {
  families "$1" 2
  echo "times $1 next, commit, hear votes_commit, hear votes_commit, hear ok, hear lost"
  echo tick
  echo "timed 100 tick"
}

{
  questions 1 64 | row "1 family of 64 registrations" "$count" Active
  questions 256 64 | row "256 families of 64 registrations" "$count" Active
} >"$work/families"
ratio question "$work/families"
{
  questions 256 1 | row "256 families of 1 registration" "$count" Active
  tail -1 "$work/families"
} >"$work/registrations"
ratio question "$work/registrations"
{
  refusals 1 | row "1 family of 64 registrations" "$count" NO_RESOURCES
  refusals 256 | row "256 families of 64 registrations" "$count" NO_RESOURCES
} >"$work/refusals"
ratio "refused registration" "$work/refusals"
{
  keyed 1000 | row "1,000 entries" 1000 Active
  keyed 10000 | row "10,000 entries" 1000 Active
} >"$work/keyed"
ratio "question under a new key" "$work/keyed"
{
  repeats 1000 | row "1,000 entries" 10000 ok
  repeats 10000 | row "10,000 entries" 10000 ok
} >"$work/repeats"
ratio "repeated commit" "$work/repeats"
{
  few | row "1 word out of each of 256 families" $((16 * 256)) "ok, to"
  many | row "64 words out of each" $((16 * 256)) "ok, to"
} >"$work/answers"
ratio answer "$work/answers"
{
  commits | row "no other transaction" 500 life
  { families 255 2; commits; } | row "255 others of 2 registrations" 500 life
} >"$work/commits"
ratio commit "$work/commits"

for decisions in 1024 8192; do
  name=$(printf '%d,%03d decisions' "$((decisions / 1000))" "$((decisions % 1000))")
  journal decisions "$decisions" 2 >"$work/octets"
  { cat "$work/octets"; echo "timed 1 tick"; } | row "$name" "$decisions" ticked >>"$work/first"
  { cat "$work/octets"; echo tick; echo "timed 5 tick"; } | row "$name" $((decisions * 5)) ticked >>"$work/further"
done
ratio "decision of a first tick" "$work/first"
ratio "decision of a further tick" "$work/further"

for registrations in 2 64; do
  { journal prepared 1024 "$registrations"; echo tick; echo "timed 20 tick"; } \
    | row "$registrations registrations" $((1024 * 20)) ticked >>"$work/prepared"
done
ratio "prepared record of a tick" "$work/prepared"

for many in 16 256; do
  finished "$many" | row "$many finished families" $((many * 100)) ticked >>"$work/finished"
done
ratio "finished family of a tick" "$work/finished"
