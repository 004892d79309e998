# What the scripts of this folder share, to be sourced: a service for a client to talk to, and the look at what it printed.
# The service is the program $ots, and has the folder $scratch. Both are gone when the script ends.

scratch=$(mktemp -d)
export OTS_HOST=127.0.0.1 OTS_PORT

stop() {
    kill -9 "$(cat "$scratch/server" 2>/dev/null)" 2>/dev/null
    rm -rf "$scratch"
}
trap stop EXIT

# Starts the service, and waits for the reference of its factory.
start() {
    : >"$scratch/reference"
    "$ots" serve 7 "$scratch/journal" "$OTS_HOST" "$OTS_PORT" >"$scratch/reference" 2>"$scratch/errors" &
    echo $! >"$scratch/server"
    disown # so that the shell says nothing of a service that a client kills
    for _ in $(seq 300); do
        [ -s "$scratch/reference" ] && return 0
        kill -0 $! 2>/dev/null || break
        sleep 0.1
    done
    cat "$scratch/errors" >&2
    return 1
}

# Starts it on a port that is free, and writes $scratch/restart, by which a client that killed it has it started again.
start_somewhere() {
    local tries=0
    OTS_PORT=$((20000 + RANDOM % 12000))
    until start; do
        [ $((tries += 1)) -lt 20 ] || return 1
        OTS_PORT=$((20000 + RANDOM % 12000))
    done
    cat >"$scratch/restart" <<END
"$ots" serve 7 "$scratch/journal" "$OTS_HOST" "$OTS_PORT" >"$scratch/again" 2>>"$scratch/errors" &
echo \$! >"$scratch/server"
for _ in \$(seq 300); do [ -s "$scratch/again" ] && exit 0; sleep 0.1; done
exit 1
END
}

# run_cases EXPECTED CLIENT [CASE ..]: has CLIENT, a function, run the cases. Its words are the reference, and then none for
# all, or the cases, or those of the case that kills the service. Where all are run, the lines are compared with EXPECTED.
run_cases() {
    local expected=$1 client=$2 reference
    shift 2
    start_somewhere || { echo "interop: the service doesn't start" >&2; return 1; }
    reference=$(cat "$scratch/reference")
    if [ $# -gt 0 ] && [ "$1" != crash ]; then
        "$client" "$reference" "$@"
        return
    fi
    {
        [ $# -gt 0 ] || "$client" "$reference"
        "$client" "$reference" crash "$(cat "$scratch/server")" "bash $scratch/restart"
    } | tee "$scratch/lines"
    [ $# -gt 0 ] && return
    if cmp -s "$scratch/lines" "$expected"; then
        echo "all as expected"
    else
        diff "$expected" "$scratch/lines" >&2
        return 1
    fi
}
