# What the benchmarks share. A benchmark sources this file, after `set -euo pipefail`.
here=$(cd "$(dirname "${BASH_SOURCE[0]}")/.." && pwd)
ots=$here/crates/ots/out/ots
work=$(mktemp -d)
trap 'rm -rf "$work"' EXIT

# build COMMAND: builds the program, whose build ends with a run of that command on nothing.
build() {
  (cd "$here/crates/ots" && rt run -- "$1" </dev/null >/dev/null 2>&1)
}

# wall COMMAND..: runs it, and prints the time that passes, in nanoseconds.
wall() {
  local start end
  start=$(date +%s%N)
  "$@" >/dev/null
  end=$(date +%s%N)
  echo $((end - start))
}

# processor COMMAND..: runs it, and prints the processor time that it takes, in nanoseconds.
processor() {
  python3 -c '
import os, sys
quiet = os.open(os.devnull, os.O_WRONLY)
child = os.posix_spawnp(sys.argv[1], sys.argv[1:], os.environ, file_actions=[(os.POSIX_SPAWN_DUP2, quiet, 1)])
_, status, used = os.wait4(child, 0)
print(round((used.ru_utime + used.ru_stime) * 10**9))
sys.exit(os.waitstatus_to_exitcode(status))
' "$@"
}

# rows COMMAND MAKE SIZE..: has MAKE write an input of each size, runs `ots COMMAND` over it once for its lines and three
# times for its time, and prints a row: the size, the octets of the input, the least time in nanoseconds, and the lines. The
# time is of the kind that `clock` names: wall or processor.
rows() {
  local command=$1 make=$2 size best took
  shift 2
  for size in "$@"; do
    "$make" "$size" >"$work/$size.input"
    "$ots" "$command" <"$work/$size.input" >"$work/$size.lines"
    best=
    for _ in 1 2 3; do
      took=$("${clock:-wall}" "$ots" "$command" <"$work/$size.input")
      if [ -z "$best" ] || [ "$took" -lt "$best" ]; then best=$took; fi
    done
    echo "$size $(wc -c <"$work/$size.input") $best $(wc -l <"$work/$size.lines")"
  done
}

# scratch NAME TEXT CRATE..: builds the program whose root is that text of this folder, over these crates, and names it in
# `program`. It stands beside a copy of the crates, which stays, so that a later run proves only what has changed.
scratch() {
  local name=$1 text=$2 top=${TMPDIR:-/tmp}/ots-bench
  shift 2
  mkdir -p "$top/crates/$name/src"
  (cd "$here" && tar --exclude='crates/*/out' -c crates crates.txt) | tar -C "$top" -x
  cp "$here/bench/$text" "$top/crates/$name/src/main.rt"
  echo "$name: $*" >>"$top/crates.txt"
  (cd "$top/crates/$name" && rt run </dev/null >/dev/null 2>&1) || true
  program=$top/crates/$name/out/$name
}
