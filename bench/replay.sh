#!/usr/bin/env bash
# Replays scripts of growing length, and prints lines per second and how the time per line grows: of transactions that are
# all under way at once, and of transactions one after another whose node crashes and comes up again eight times. Then how
# the time of a restart grows with the octets of the journal, behind 500 and 5,000 transactions. And how the time per line
# grows with the transactions of a tree, from 128 to 1,024, of which each has two below it, with 64 resources: committed
# from the leaves up, rolled back from the top, and committed at the top while all the others go on. Run it anywhere; it
# builds the program first. Sizes of the first scripts may be given as arguments.
set -euo pipefail
. "$(dirname "$0")/timing.sh"
[ $# -gt 0 ] || set -- 1000 10000 30000 100000
build replay

# A script of about that many lines: transactions of up to 64 resources, of which every fourth has one that refuses, all
# under way at once before their messages are delivered; the rest of the lines are comments and deliveries.
script() {
  python3 - "$1" <<'PY'
import sys
lines = int(sys.argv[1])
out = ["node n1", "end e1"]
transactions = min(256, max(1, lines // 140))
resources = 64 if lines >= 140 * transactions else max(2, (lines - 2) // transactions // 2 - 2)
for t in range(transactions):
    out.append(f"begin n1 t{t} 0")
    for r in range(resources):
        out.append(f"register t{t} e1 g{t}x{r}")
    for r in range(resources):
        out.append(f"put g{t}x{r} {t * 64 + r} {r}")
    if t % 4 == 3:
        out.append(f"refuse g{t}x{resources - 1}")
for t in range(transactions):
    out.append(f"commit t{t} 0")
left = max(1, lines - len(out))
messages = transactions * resources * 4
each = max(1, messages // left + 1)
while len(out) < lines:
    out.append(f"flow {each}")
print("\n".join(out[:lines]))
PY
}

# further SIZE BODY: a script that begins with a node and an end; BODY adds the rest to `out`. A transaction of two
# resources is added by `commits`; its decision isn't told before the messages are delivered.
further() {
  python3 -c '
import sys
size = int(sys.argv[1])
out = ["node n1", "end e1"]
def commits(t):
    out.extend([f"begin n1 t{t} 0", f"register t{t} e1 a{t}", f"register t{t} e1 b{t}"])
    out.extend([f"put a{t} {2 * t} 1", f"put b{t} {2 * t + 1} 2", f"commit t{t} 0"])
exec(sys.argv[2])
print("\n".join(out))
' "$1" "$2"
}

# About that many lines: eight times the node crashes with a decision that not all have heard.
crashes() {
  further "$1" '
count = (size - 34) // 7
for t in range(count):
    commits(t)
    if t % (count // 8) == count // 8 - 1:
        out.extend(["flow 5", "crash n1", "restart n1", "tick n1 1"])
    out.append("flow 100")
'
}

# That many transactions, one after another, and then no crash, or 40 of them.
transactions='
for t in range(size):
    commits(t)
    out.append("flow 100")
'
running() { further "$1" "$transactions"; }
restarting() { further "$1" "$transactions"'out.extend(40 * ["crash n1", "restart n1"])'; }

# Trees of that many transactions, 16,384 in all. Each has up to two subtransactions, and in each tree 64 have a resource.
tree() {
  further "$1" '
for f in range(16384 // size):
    out.append(f"begin n1 t{f}x0 0")
    out.extend(f"sub t{f}x{(i - 1) // 2} t{f}x{i}" for i in range(1, size))
    for r in range(64):
        out.append(f"register t{f}x{r * size // 64 + 1} e1 g{f}x{r}")
        out.append(f"put g{f}x{r} {f * 64 + r} 1")
    out.extend(f"'"$2"' t{f}x{i}'"$3"'" for i in '"$4"')
    out.append("flow 1000")
'
}
leaves() { tree "$1" commit " 0" "reversed(range(size))"; }
top() { tree "$1" rollback "" "range(1)"; }
live() { tree "$1" commit " 0" "range(1)"; }

# Prints the time of each row per line, and how it grows.
per_line() {
  python3 -c '
import sys
rows = [tuple(map(int, line.split())) for line in sys.stdin]
for size, _, took, printed in rows:
    print(f"{size:>7} lines, {printed:>7} printed: {took / 1e6:8.1f} ms, {(size + printed) / took * 1e9:12,.0f} lines per second")
per = {size: took / (size + printed) for size, _, took, printed in rows}
for smaller, larger in ((1000, 30000), (10000, 100000)):
    if smaller in per and larger in per:
        print(f"ratio of the time per line, {larger:,} lines to {smaller:,}: {per[larger] / per[smaller]:.2f}")
'
}

# The time of a restart by the octets of the journal, whose digits are the last word that is printed.
per_octet() {
  rows replay running 500 5000 >"$work/running"
  for size in 500 5000; do
    tail -1 "$work/$size.lines" | awk '{ print int(length($3) / 2) }'
  done >"$work/octets"
  rows replay restarting 500 5000 | paste -d " " - "$work/running" "$work/octets" | python3 -c '
import sys
per = []
for line in sys.stdin:
    size, _, took, _, _, _, before, _, octets = map(int, line.split())
    each = max(1, took - before) / 40
    per.append(each / octets)
    print(f"{size:>7} transactions, {octets:>8} octets: {each / 1e6:8.2f} ms per restart, {each / octets:6.2f} ns per octet")
print(f"ratio of the time of a restart per octet of the journal, 5,000 transactions to 500: {per[1] / per[0]:.2f}")
'
}

per_printed() {
  rows replay "$1" 128 1024 | python3 -c '
import sys
rows = [tuple(map(int, line.split())) for line in sys.stdin]
for size, _, took, printed in rows:
    print(f"{size:>7} in a tree, {printed:>7} printed: {took / 1e6:8.1f} ms, {printed / took * 1e9:12,.0f} lines per second")
(_, _, few, once), (_, _, many, again) = rows
print(f"ratio of the time per line, 1,024 in a tree to 128: {many / again / (few / once):.2f}")
'
}

echo "Transactions at once, by the lines of the script:"
rows replay script "$@" | per_line
echo "Transactions one after another, with eight crashes:"
rows replay crashes "$@" | per_line
echo "A restart, by the octets of the journal:"
per_octet
echo "Trees that are committed from the leaves up:"
per_printed leaves
echo "Trees that are rolled back from the top:"
per_printed top
echo "Trees that are committed at the top while all the others go on:"
per_printed live
