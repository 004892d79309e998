# What the scripts with ends share, to be sourced: a service and two ends at 127.0.0.1, each at a port that is free. They are
# `service`, `first` and `second`, of the program $ots. A party has its files in the folder $scratch: NAME.journal, .reference
# (its line), .errors and .pid. All is gone when the script ends.

scratch=$(mktemp -d)
host=127.0.0.1
declare -A words=([service]="serve 7" [first]="resource 8" [second]="resource 9") port
parties="service first second"

# Whether a party runs. Of one that has ended a process may be left that nobody has waited for, without any thread: only then
# its file and its port are free.
runs() {
    local pid state threads
    pid=$(cat "$scratch/$1.pid")
    { read -r _ _ state _ <"/proc/$pid/stat"; } 2>/dev/null || return 1
    threads=("/proc/$pid/task"/*)
    [ "$state" != Z ] || [ ${#threads[@]} -gt 1 ]
}

# Kills a party, as at a crash.
kill_party() {
    [ -e "$scratch/$1.pid" ] || return 0
    kill -9 "$(cat "$scratch/$1.pid")" 2>/dev/null
    while runs "$1"; do sleep 0.01; done
}

end_all() {
    local name
    for name in $parties; do kill_party $name; done
    rm -rf "$scratch"
}
trap end_all EXIT

# Begins a party at its port, and waits for its line. Further words are the environment that it gets.
begin() {
    local name=$1
    shift
    : >"$scratch/$name.reference"
    env "$@" "$ots" ${words[$name]} "$scratch/$name.journal" $host "${port[$name]}" \
        >"$scratch/$name.reference" 2>"$scratch/$name.errors" &
    echo $! >"$scratch/$name.pid"
    disown # so that the shell says nothing of a party that is killed
    for _ in $(seq 1500); do
        read -r _ <"$scratch/$name.reference" && return 0
        runs "$name" || return 1
        sleep 0.02
    done
    return 1
}

# Writes $scratch/restart, by which a client has a party killed and begun again: `bash RESTART NAME`.
write_restart() {
    {
        declare -p scratch host ots words port
        declare -f runs kill_party begin
        echo 'kill_party "$1"; begin "$1"'
    } >"$scratch/restart"
}

# Begins a party at a port that is free.
begin_somewhere() {
    local tries=0
    port[$1]=$((20000 + RANDOM % 12000))
    until begin "$1"; do
        [ $((tries += 1)) -lt 20 ] || { cat "$scratch/$1.errors" >&2; return 1; }
        port[$1]=$((20000 + RANDOM % 12000))
    done
}

begin_all() {
    local name
    for name in $parties; do begin_somewhere $name || return; done
}

# The line of a party.
line_of() { cat "$scratch/$1.reference"; }

# build NAME SOURCE ..: makes the client out/NAME of these, where one of them is newer. It has the stubs of both interfaces.
out=$here/out
build() {
    local name=$1 source
    shift
    mkdir -p "$out"
    for source in "$@" within.h within.cc CosTransactions.idl Cells.idl; do
        [ "$out/$name" -nt "$here/$source" ] && continue
        for source in CosTransactions Cells; do
            omniidl -bcxx -Wbh=.hh -Wbs=.cc -C"$out" "$here/$source.idl" || return
        done
        (cd "$here" && g++ -std=c++17 -O1 -Wall -Wno-unused -I"$out" -I. -o "$out/$name" $(printf '%s\n' "$@" | grep '\.cc$') \
            within.cc "$out/CosTransactions.cc" "$out/Cells.cc" -lomniDynamic4 -lomniORB4 -lomnithread -lpthread)
        return
    done
}

# Makes the library that kills its process at a call of it.
build_killer() {
    [ "$out/killer.so" -nt "$here/killer.c" ] || gcc -O1 -shared -fPIC -o "$out/killer.so" "$here/killer.c" -ldl
}

has_omniorb() {
    command -v omniidl >/dev/null && [ -e /usr/include/omniORB4/CORBA.h ] && return
    echo "interop: omniORB is missing. On Debian: apt-get install g++ omniidl libomniorb4-dev" >&2
    return 1
}
