#!/bin/bash
# interop/combat.sh OTS [CASE ..]: has a client over Combat, Tcl's ORB, run transactions against `OTS serve`, and prints a
# line for each case. OTS is the program, as crates/ots/out/ots. With no case all are run, and the lines are compared with
# combat.lines. The service listens at 127.0.0.1 on a port that is free. The client listens on one too, at each address of
# the machine, since Combat can't be told at which.
set -u
here=$(cd "$(dirname "$0")" && pwd)
: "${1:?interop/combat.sh OTS [CASE ..]}"
ots=$(realpath "$1") || exit
shift

if ! [ "$(echo 'puts [package require combat]' | tclsh 2>/dev/null)" ]; then
    echo "interop: Combat is missing. On Debian: apt-get install tcl tcl-combat" >&2
    exit 1
fi

client() { tclsh "$here/combat.tcl" "$@"; }

. "$here/service.sh"
run_cases "$here/combat.lines" client "$@"
