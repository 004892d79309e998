#!/usr/bin/env bash
# Makes calls on trees of transactions of growing size, on their registrations and on their completions, by the
# program of tree_rows.txt, and prints the processor time per call and how it grows with the size. What the trees take that the calls
# are made on is timed alone, and taken off. Run it anywhere; it builds the program first. How many calls a row makes may be
# given as an argument.
set -euo pipefail
. "$(dirname "$0")/timing.sh"
calls=${1:-200000}
clock=processor
scratch tree_rows tree_rows.txt ots_model resource_votes two_phase txn_tree
ots=$program

# Random calls are answered as by the plain accounts of tree_calls.py.
python3 "$here/bench/tree_calls.py" cases calls | "$ots" >"$work/told"
python3 "$here/bench/tree_calls.py" cases answers | cmp - "$work/told"

# row KIND SIZE..: about so many calls of a kind on trees of each size. What is counted is named, with the calls that each
# takes, by `each` and `times`.
row() {
  local kind=$1
  shift
  make() { python3 "$here/bench/tree_calls.py" bench "$kind" "$1" "$calls"; }
  setup() { python3 "$here/bench/tree_calls.py" setup "$kind" "$1" "$calls"; }
  rows cases make "$@" >"$work/all"
  rows cases setup "$@" | paste -d " " "$work/all" - | each=${each:-call} times=${times:-1} python3 -c '
import os, sys
each, times = os.environ["each"], int(os.environ["times"])
rows = []
for line in sys.stdin:
    size, octets, took, told, _, _, setup, before = map(int, line.split())
    rows.append((size, octets, max(1, took - setup), told - before))
for size, _, took, told in rows:
    print(f"{size:>6}: {told:>8} calls, {took / 1e6:8.1f} ms, {took / told * times:8.0f} ns per {each}")
(small, _, first, once), (large, _, last, again) = rows[0], rows[-1]
print(f"ratio of the time per {each}, {large:,} to {small:,}: {(last / again) / (first / once):.2f}")
'
}

echo "create_sub, by the transactions of a tree:"
row create 16 128 1024
echo "create_sub, by the depth of the new transaction:"
row deep 2 4 16
echo "live_under, below one that has a single subtransaction, by the live subtransactions of its tree:"
row few 128 512 1023
rollbacks() { each=subtransaction times=2 row "$1" 128 512 1022; }
echo "live_under and end_sub, each as the next one below the top, by the live subtransactions of a tree:"
rollbacks top
echo "live_under and end_sub, from the leaves up, with a look below the parent of each, by the same:"
rollbacks leaves
echo "live_under and end_sub, pairs of one and its only child, by the same:"
rollbacks pairs
echo "mark of one that stays marked, by the transactions of a tree:"
row mark 16 128 1024
echo "status, parent_status and top_status, by the transactions of a tree:"
row status 16 128 1024
echo "register, by the registrations of a tree:"
row register 2 16 64
echo "register_aware, by the registrations of a tree:"
row aware 2 16 64
echo "register_sync, by the synchronizations of a tree:"
row sync 2 16 64
echo "vote and vote_of, by the registrations of a tree:"
row vote 2 16 64
echo "aware, each behind the one before it, by the aware resources of a subtransaction:"
row told 2 16 64
echo "is_ancestor, is_related and is_same, by the depth of a branch:"
row ancestry 2 4 16
echo "end_sub and adopt, by the subtransactions that hand one registration each to the top:"
row adopt 2 16 63
echo "end_sub and adopt, by the registrations that each subtransaction hands to its parent:"
row handed 1 16 60
echo "participants of the top, by its registrations:"
row participants 2 16 64
echo "next and answer, by the participants of a completion:"
row completion 2 16 64
echo "root_join, sub_join, report, dispositions and what is pending, by the participants of a completion:"
each=look times=3 row join 2 16 64
