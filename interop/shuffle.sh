#!/bin/bash
# interop/shuffle.sh OTS CLIENTS SECONDS: several clients over omniORB move amounts among cells of two ends, while the service
# and the ends are killed at random moments and begin again. The sum must stay, and what clients were told must be so. With
# TORN=1 in the environment each is killed inside a call instead, when half of what it writes or sends by it is out.
set -u
here=$(cd "$(dirname "$0")" && pwd)
: "${1:?interop/shuffle.sh OTS CLIENTS SECONDS}"
ots=$(realpath "$1") || exit
clients=${2:-8} seconds=${3:-20}
. "$here/parties.sh"
has_omniorb || exit
build shuffle shuffle.cc objects.cc objects.h && build_killer || exit
begin_all || { echo "interop: a party doesn't start" >&2; exit 1; }
declare -A kills=([service]=0 [first]=0 [second]=0)

begin_again() {
    kill_party "$1"
    begin "$1" && return
    echo "interop: $1 doesn't start again" >&2
    cat "$scratch/$1.errors" >&2
}

# Kills one of them after some time, or now and then all at once.
kill_some() {
    local fallen=($parties) name
    sleep "0.$((RANDOM % 900 + 100))"
    [ $((RANDOM % 5)) = 0 ] || fallen=(${fallen[RANDOM % 3]})
    for name in ${fallen[*]}; do kill_party $name; done
    for name in ${fallen[*]}; do
        begin_again $name
        kills[$name]=$((kills[$name] + 1))
    done
}

# Begins a party so that it falls at one of its next calls, which may be inside its start.
begin_to_fall() {
    local tries=0
    kill_party "$1"
    until begin "$1" LD_PRELOAD="$out/killer.so" KILL_HALF=1 KILL_AT=$((RANDOM % 1000 + 1)); do
        kills[$1]=$((kills[$1] + 1))
        [ $((tries += 1)) -lt 20 ] || { begin_again "$1"; return; }
    done
}

# Begins those again that have fallen.
raise_fallen() {
    local name
    for name in $parties; do
        runs $name && continue
        kills[$name]=$((kills[$name] + 1))
        begin_to_fall $name
    done
    sleep 0.1
}

: >"$scratch/lines"
"$out/shuffle" "$(line_of service)" "$(line_of first)" "$(line_of second)" "$clients" "$seconds" "$scratch/held" \
    -ORBclientCallTimeOutPeriod 60000 ${INTEROP_OPTIONS:-} >"$scratch/lines" &
shuffle=$!
until grep -q "cells set" "$scratch/lines"; do
    kill -0 $shuffle 2>/dev/null || exit 1
    sleep 0.1
done
[ -z "${TORN:-}" ] || for name in $parties; do begin_to_fall $name; done
end=$((SECONDS + seconds))
while [ $SECONDS -lt $end ] && kill -0 $shuffle 2>/dev/null; do
    if [ "${TORN:-}" ]; then raise_fallen; else kill_some; fi
done
[ -z "${TORN:-}" ] || for name in $parties; do begin_again $name; done
while kill -0 $shuffle 2>/dev/null; do
    if [ -e "$scratch/held" ]; then
        for name in first second; do begin_again $name; done
        rm "$scratch/held"
    fi
    sleep 0.2
done
wait $shuffle
status=$?
for name in $parties; do
    echo "$name: killed ${kills[$name]} times, journal $(stat -c %s "$scratch/$name.journal") octets"
done
tail -n +2 "$scratch/lines"
exit $status
