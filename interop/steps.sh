#!/bin/bash
# interop/steps.sh OTS [PARTY ..]: kills each of three servers (service, first, second) at each step of a transfer between
# cells of two ends: at each call by which it writes, sends, syncs or cuts a file, from its start on. Then the server begins
# again, and both cells must have changed, or none, as the client was told. It prints a line for each server, and on standard
# error one for each step. In the environment:
#   KILL_HALF=1  half of what is written or sent at that step goes out
#   FAIL=1       nobody is killed at that step, but its call fails, and the server is killed behind the transfer
#   ALONE=1      both cells are of the first end, whose one resource decides alone
#   PATIENCE=N   how many seconds cells may be held, behind which all three begin again (5)
set -u
here=$(cd "$(dirname "$0")" && pwd)
: "${1:?interop/steps.sh OTS [PARTY ..]}"
ots=$(realpath "$1") || exit
shift
. "$here/parties.sh"
has_omniorb || exit
build teller teller.cc objects.cc objects.h && build_killer || exit

teller() {
    local second=second
    [ "${ALONE:-}" ] && second=first
    "$out/teller" "$(line_of service)" "$(line_of first)" "$(line_of $second)" "$@" -ORBclientCallTimeOutPeriod 20000
}

fail() {
    echo "interop: $*" >&2
    cat "$scratch"/*.errors >&2
    exit 1
}

# Journals in which both cells have 100, from which each step begins.
prepare() {
    local name
    begin_all || fail "a party doesn't start"
    [ "$(teller set)" = ok ] || fail "the cells can't be set"
    sleep 2
    for name in $parties; do
        kill_party $name
        cp "$scratch/$name.journal" "$scratch/$name.before"
    done
}

# Begins all, one of which is to be killed at this step. Where that one falls at its start, it begins again.
begin_to_fall() {
    local victim=$1 step=$2 name
    rm -f "$scratch/failed"
    for name in $parties; do
        kill_party $name
        cp "$scratch/$name.before" "$scratch/$name.journal"
        if [ $name = "$victim" ]; then
            begin $name LD_PRELOAD="$out/killer.so" KILL_AT="$step" ${FAIL:+KILL_FAIL=$scratch/failed} && continue
            at_start=$((at_start + 1))
        fi
        begin $name || fail "$name doesn't start"
    done
}

# Judges a step by what the client was told and by what the cells hold.
judge() {
    local told=$1 cells=$2
    case $told/$cells in
        "ok/70 130" | "not known"*"/70 130") changed=$((changed + 1)) ;;
        "rolled back/100 100" | "not known"*"/100 100") unchanged=$((unchanged + 1)) ;;
        *) wrong=$((wrong + 1)) ;;
    esac
}

# Whether a party has come to its step.
has_fallen() { [ -e "$scratch/failed" ] || ! runs "$1"; }

# Kills a party at this step of a transfer. It answers 1 where the party has gone through the transfer without so many steps.
step() {
    local victim=$1 step=$2 told cells name began=$at_start restarted=
    begin_to_fall "$victim" "$step"
    told=$(teller move)
    if [ $at_start = $began ]; then
        has_fallen "$victim" || sleep 2
        has_fallen "$victim" || return 1
        kill_party "$victim"
        begin "$victim" || fail "$victim doesn't start again"
    fi
    cells=$(teller look "$patience")
    if [[ $cells = *held* ]]; then
        held=$((held + 1)) restarted=" then, all begun again, "
        for name in $parties; do kill_party $name; begin $name || fail "$name doesn't start again"; done
        restarted+=$(teller look 20)
        [[ $restarted = *held* ]] && stuck=$((stuck + 1))
    fi
    echo "$victim $step: $told; $cells$restarted" >&2
    judge "$told" "$(echo "$cells" | cut -d' ' -f1,2)"
}

patience=${PATIENCE:-5}
prepare
faults=0
for victim in ${*:-$parties}; do
    at_start=0 changed=0 unchanged=0 wrong=0 held=0 stuck=0 number=1
    while step $victim $number; do number=$((number + 1)); done
    echo "$victim: killed at each of $((number - 1)) steps, $at_start of them at its start; both changed $changed," \
        "none $unchanged, wrong $wrong; held until a restart $held, stuck $stuck"
    faults=$((faults + wrong + stuck))
done
[ $faults = 0 ]
