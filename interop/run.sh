#!/bin/bash
# interop/run.sh OTS [CASE ..]: has a client over omniORB run transactions against `OTS serve`, and prints a line for each
# case. OTS is the program, as crates/ots/out/ots. With no case all are run, and the lines are compared with expected.lines.
# It listens at 127.0.0.1 on a port that is free, and leaves nothing but the client in interop/out.
set -u
here=$(cd "$(dirname "$0")" && pwd)
: "${1:?interop/run.sh OTS [CASE ..]}"
ots=$(realpath "$1") || exit
shift
out=$here/out

if ! command -v omniidl >/dev/null || ! [ -e /usr/include/omniORB4/CORBA.h ]; then
    echo "interop: omniORB is missing. On Debian: apt-get install g++ omniidl libomniorb4-dev" >&2
    exit 1
fi

build() {
    mkdir -p "$out"
    [ "$out/client" -nt "$here/client.cc" ] && [ "$out/client" -nt "$here/objects.cc" ] &&
        [ "$out/client" -nt "$here/objects.h" ] && [ "$out/client" -nt "$here/CosTransactions.idl" ] && return
    omniidl -bcxx -Wbh=.hh -Wbs=.cc -C"$out" "$here/CosTransactions.idl" &&
        g++ -std=c++17 -O1 -Wall -Wno-unused -I"$out" -I"$here" -o "$out/client" \
            "$here/client.cc" "$here/objects.cc" "$out/CosTransactions.cc" -lomniDynamic4 -lomniORB4 -lomnithread -lpthread
}

build || { echo "interop: the client can't be built" >&2; exit 1; }

client() {
    "$out/client" "$@" -ORBendPoint "giop:tcp:$OTS_HOST:" -ORBclientCallTimeOutPeriod 60000 ${INTEROP_OPTIONS:-}
}

. "$here/service.sh"
run_cases "$here/expected.lines" client "$@"
