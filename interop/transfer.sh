#!/bin/bash
# interop/transfer.sh OTS [CASE ..]: has a client over omniORB put values into the cells of two ends under one transaction of
# `OTS serve`, each end an `OTS resource`, and prints a line for each case. With no case all are run, and the lines are
# compared with transfer.lines. OTS is the program, as crates/ots/out/ots.
set -u
here=$(cd "$(dirname "$0")" && pwd)
: "${1:?interop/transfer.sh OTS [CASE ..]}"
ots=$(realpath "$1") || exit
shift
. "$here/parties.sh"
has_omniorb || exit
build transfer transfer.cc objects.cc objects.h || { echo "interop: the client can't be built" >&2; exit 1; }
begin_all || { echo "interop: a party doesn't start" >&2; exit 1; }
write_restart
export OTS_PORT=${port[first]} OTS_RESTART=$scratch/restart
"$out/transfer" "$(line_of service)" "$(line_of first)" "$(line_of second)" "$@" \
    -ORBendPoint "giop:tcp:$host:" -ORBclientCallTimeOutPeriod 60000 ${INTEROP_OPTIONS:-} | tee "$scratch/lines"
[ $# -gt 0 ] && exit
if cmp -s "$scratch/lines" "$here/transfer.lines"; then
    echo "all as expected"
else
    diff "$here/transfer.lines" "$scratch/lines" >&2
    exit 1
fi
