#!/usr/bin/env bash
# bench/serve.sh OTS [SECONDS]: measures `OTS serve` with clients over omniORB, and prints a line for each figure: commits a
# second of 1, 4, 16 and 64 clients, beside what the disk's syncs alone allow; the processor time of the service; calls that
# need no disk; and two-phase commits of PostgreSQL, where that is installed. OTS is the program, as crates/ots/out/ots. Each
# figure is measured for SECONDS, 5 where none are given. The journal stands in a scratch folder in TMPDIR, or in the current
# folder where TMPDIR isn't set, which must lie on a disk: a sync costs nothing in a tmpfs. Nothing stays but the clients in
# bench/out.
set -u
here=$(cd "$(dirname "$0")" && pwd)
: "${1:?bench/serve.sh OTS [SECONDS]}"
. "$here/clients.sh"
build_client serve "$here/serve.cc" "$interop"/objects.{cc,h}

. "$interop/service.sh"
stop_all() {
    local postgres
    postgres=$(cat "$scratch/postgres_process" 2>/dev/null)
    [ "$postgres" ] && kill -QUIT "$postgres" 2>/dev/null && wait "$postgres" 2>/dev/null
    stop
}
trap stop_all EXIT

# client KIND CLIENTS SECONDS [WORD]: has so many clients go on, each call that is under way over a connection of its own.
client() {
    "$out/serve" "$1" "$2" "$3" "$(cat "$scratch/reference")" "${@:4}" -ORBendPoint "giop:tcp:$OTS_HOST:" \
        -ORBclientCallTimeOutPeriod 60000 -ORBmaxGIOPConnectionPerServer 64
}

# syncs CALL SECONDS: the syncs a second of a file beside the journal.
syncs() { "$out/serve" syncs "$1" "$2" "$scratch/synced"; }

start_somewhere || ended "the service doesn't start"
say "the disk alone: {:,.0f} syncs a second by fsync, as the service does them, {:,.0f} by fdatasync" \
    "$(syncs fsync "$seconds")" "$(syncs fdatasync "$seconds")"

# The disk is measured before and after the commits, since what else it does may change meanwhile.
declare -A commits costs calls
half=$(of "$seconds / 2")
for clients in 1 4 16 64; do
    before=$(syncs fsync "$half") || ended
    figures=$(client commits "$clients" "$seconds" "$(cat "$scratch/server")") || ended
    after=$(syncs fsync "$half") || ended
    read -r commits[$clients] costs[$clients] <<<"$figures"
    say "$(named "$clients"): {:,.0f} commits a second, {:.2f} of what 4 syncs a commit allow" \
        "${commits[$clients]}" "$(of "${commits[$clients]} / (($before + $after) / 2 / 4)")"
done
say "ratio of the commits a second, 64 clients to 1: {:.2f}" "$(of "${commits[64]} / ${commits[1]}")"
for clients in 1 4 16 64; do
    say "$(named "$clients"): {:.4f} processor seconds of the service a commit" "${costs[$clients]}"
done
say "ratio of the processor seconds a commit, 64 clients to 1: {:.2f}" "$(of "${costs[64]} / ${costs[1]}")"

for clients in 1 16; do
    calls[$clients]=$(client calls "$clients" "$seconds") || ended
    say "$(named "$clients"): {:,.0f} calls a second that need no disk" "${calls[$clients]}"
done
say "ratio of the calls a second, 16 clients to 1: {:.2f}" "$(of "${calls[16]} / ${calls[1]}")"
figures=$(client longest 16 "$seconds") || ended
say "16 clients commit: of {0:,.0f} calls that need no disk the longest took {2:.1f} ms, the one in the middle {1:.2f}" $figures

# Starts a PostgreSQL whose folder is beside the journal. As root it is run by the user `postgres`.
start_postgres() {
    local as=() programs folder=$scratch/postgres
    programs=$(command -v initdb || ls /usr/lib/postgresql/*/bin/initdb 2>/dev/null | tail -1)
    programs=$(dirname "$(realpath -m "${programs:-/none/initdb}")")
    [ -x "$programs/initdb" ] && [ -x "$programs/postgres" ] || { echo "it isn't there"; return 1; }
    newer "$out/serve_postgres" "$here/serve_postgres.cc" ||
        g++ -std=c++17 -O1 -Wall -I"$(pg_config --includedir 2>/dev/null)" -o "$out/serve_postgres" \
            "$here/serve_postgres.cc" -lpq -lpthread 2>/dev/null ||
        { echo "its client can't be built. On Debian: apt-get install libpq-dev"; return 1; }
    mkdir "$folder"
    if [ "$(id -u)" = 0 ]; then
        chmod 711 "$scratch"
        chown postgres "$folder" 2>/dev/null || { echo "there is no user postgres"; return 1; }
        as=(setpriv --reuid=postgres --regid=postgres --clear-groups)
    fi
    cd "$folder" && "${as[@]}" "$programs/initdb" -D "$folder/data" -U bench -A trust >"$scratch/initdb" 2>&1 ||
        { echo "it can't be set up: $(tail -1 "$scratch/initdb")"; return 1; }
    "${as[@]}" "$programs/postgres" -D "$folder/data" -k "$folder" -c listen_addresses= -c max_connections=200 \
        -c max_prepared_transactions=200 >"$scratch/postgres_log" 2>&1 &
    echo $! >"$scratch/postgres_process"
    for _ in $(seq 100); do
        "$out/serve_postgres" "$folder" 0 0 >/dev/null 2>&1 && return 0
        sleep 0.1
    done
    echo "it doesn't start: $(tail -1 "$scratch/postgres_log")"
    return 1
}

if ! start_postgres >"$scratch/why"; then
    echo "PostgreSQL: $(cat "$scratch/why")"
    exit 0
fi
for clients in 1 4 16 64; do
    figure=$("$out/serve_postgres" "$scratch/postgres" "$clients" "$seconds") || ended
    say "PostgreSQL, $(named "$clients"): {:,.0f} commits a second; ratio of the service's to these: {:.2f}" \
        "$figure" "$(of "${commits[$clients]} / $figure")"
done
