#!/usr/bin/env bash
# bench/transfers.sh OTS [SECONDS]: measures transactions over `OTS serve` that put into a cell of either of two ends, each an
# `OTS resource`, with clients over omniORB. It prints a line for each figure: commits a second of 1, 4, 16 and 64 clients,
# beside what the disk's syncs alone allow, and the processor time of the service and of the ends. OTS is the program, as
# crates/ots/out/ots. Each figure is measured for SECONDS, 5 where none are given. The journals stand in a scratch folder in
# TMPDIR, or in the current folder where TMPDIR isn't set, which must lie on a disk: a sync costs nothing in a tmpfs. Nothing
# stays but the client in bench/out.
set -u
here=$(cd "$(dirname "$0")" && pwd)
: "${1:?bench/transfers.sh OTS [SECONDS]}"
. "$here/clients.sh"
build_client transfers "$here/transfers.cc" "$interop"/objects.{cc,h} "$interop"/within.{cc,h}

. "$interop/parties.sh"
begin_all || ended "a party doesn't start"

# commits CLIENTS: has so many go on, each call that is under way over a connection of its own. A party takes 64 connections,
# and the words of the two others need some of these.
commits() {
    local lines=() processes=() name
    for name in $parties; do
        lines+=("$(line_of $name)")
        processes+=("$(cat "$scratch/$name.pid")")
    done
    "$out/transfers" commits "$1" "$seconds" "${lines[@]}" "${processes[@]}" \
        -ORBclientCallTimeOutPeriod 60000 -ORBmaxGIOPConnectionPerServer 32
}

# syncs SECONDS COUNT: the syncs a second of so many files beside the journals, all together.
syncs() {
    local files=() number
    for number in $(seq "$2"); do files+=("$scratch/synced$number"); done
    "$out/transfers" syncs "$1" "${files[@]}"
}

say "the disk alone: {:,.0f} syncs a second of one file, {:,.0f} of three files at once" \
    "$(syncs "$seconds" 1)" "$(syncs "$seconds" 3)"

# One client has each sync wait for the one before. With more of them the three journals are synced beside each other. The
# disk is measured before and after the commits, since what else it does may change meanwhile.
declare -A rates services ends
half=$(of "$seconds / 2")
for clients in 1 4 16 64; do
    files=$((clients == 1 ? 1 : 3))
    before=$(syncs "$half" $files) || ended
    figures=$(commits $clients) || ended
    after=$(syncs "$half" $files) || ended
    read -r rates[$clients] services[$clients] ends[$clients] <<<"$figures"
    say "$(named $clients): {:,.0f} commits a second, {:.2f} of what 12 syncs a commit allow" \
        "${rates[$clients]}" "$(of "${rates[$clients]} / (($before + $after) / 2 / 12)")"
done
say "ratio of the commits a second, 64 clients to 1: {:.2f}" "$(of "${rates[64]} / ${rates[1]}")"
for clients in 1 4 16 64; do
    say "$(named $clients): {:.4f} processor seconds of the service a commit, {:.4f} of the two ends" \
        "${services[$clients]}" "${ends[$clients]}"
done
say "ratio of the processor seconds a commit, 64 clients to 1: {:.2f} of the service, {:.2f} of the two ends" \
    "$(of "${services[64]} / ${services[1]}")" "$(of "${ends[64]} / ${ends[1]}")"
