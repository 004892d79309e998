#!/bin/bash
# interop/storm.sh OTS THREADS SECONDS: clients and resources over omniORB through kills of `OTS serve` at random moments.
set -u
here=$(cd "$(dirname "$0")" && pwd)
: "${1:?interop/storm.sh OTS THREADS SECONDS}"
ots=$(realpath "$1") || exit
threads=${2:-8} seconds=${3:-20}
out=$here/out
mkdir -p "$out"
if ! [ "$out/storm" -nt "$here/storm.cc" ]; then
    omniidl -bcxx -Wbh=.hh -Wbs=.cc -C"$out" "$here/CosTransactions.idl" &&
        g++ -std=c++17 -O1 -Wall -Wno-unused -I"$out" -o "$out/storm" "$here/storm.cc" "$out/CosTransactions.cc" \
            -lomniDynamic4 -lomniORB4 -lomnithread -lpthread || exit 1
fi
scratch=$(mktemp -d)
port=$((20000 + RANDOM % 12000))
kills=0
start() {
    : >"$scratch/reference"
    "$ots" serve 7 "$scratch/journal" 127.0.0.1 "$port" >"$scratch/reference" 2>>"$scratch/errors" &
    server=$!
    for _ in $(seq 300); do [ -s "$scratch/reference" ] && return 0; sleep 0.02; done
    cat "$scratch/errors" >&2
    exit 1
}
start
"$out/storm" "$(cat "$scratch/reference")" "$threads" "$seconds" -ORBendPoint giop:tcp:127.0.0.1: \
    -ORBclientCallTimeOutPeriod 60000 >"$scratch/lines" &
storm=$!
end=$((SECONDS + seconds))
while [ $SECONDS -lt $end ] && kill -0 $storm 2>/dev/null; do
    sleep "0.$((RANDOM % 900 + 100))"
    { kill -9 $server; wait $server; } 2>/dev/null
    kills=$((kills + 1))
    start
done
wait $storm
status=$?
echo "kills $kills, journal $(stat -c %s "$scratch/journal") octets; $(cat "$scratch/lines")"
{ kill -9 $server; wait $server; } 2>/dev/null
rm -rf "$scratch"
exit $status
