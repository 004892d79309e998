#!/bin/bash
# interop/rush.sh OTS ROUNDS: threads of a client over omniORB put into two ends while another thread of it ends their
# transaction. What was answered ok must be stored with it, and no cell may be held behind it.
set -u
here=$(cd "$(dirname "$0")" && pwd)
: "${1:?interop/rush.sh OTS ROUNDS}"
ots=$(realpath "$1") || exit
. "$here/parties.sh"
has_omniorb || exit
build rush rush.cc objects.cc objects.h || exit
begin_all || { echo "interop: a party doesn't start" >&2; exit 1; }
"$out/rush" "$(line_of service)" "$(line_of first)" "$(line_of second)" "${2:-1000}" \
    -ORBclientCallTimeOutPeriod 60000 -ORBmaxGIOPConnectionPerServer 20
