# What the scripts share that measure the program by clients over omniORB, to be sourced: the words OTS [SECONDS], the folder
# TMPDIR, in which journals stand, how a client is built, and how figures are said. The script has put its folder into $here.
ots=$(realpath "$1")
seconds=${2:-5}
out=$here/out
interop=$here/../interop
TMPDIR=$(realpath "${TMPDIR:-$PWD}")
export TMPDIR

ended() {
    echo "bench: ${1:-a client has failed}" >&2
    exit 1
}

if ! [[ $seconds =~ ^[1-9][0-9]*$ ]]; then
    echo "bench: SECONDS is a number from 1 on" >&2
    exit 2
fi
if ! command -v omniidl >/dev/null || ! command -v g++ >/dev/null || ! [ -e /usr/include/omniORB4/CORBA.h ]; then
    ended "omniORB is missing. On Debian: apt-get install g++ omniidl libomniorb4-dev"
fi
case $(stat -f -c %T "$TMPDIR") in tmpfs | ramfs)
    ended "$TMPDIR lies in memory. Name a folder on a disk in TMPDIR"
    ;;
esac

# newer PROGRAM TEXT..: whether the program is newer than these.
newer() {
    local program=$1 text
    shift
    for text in "$@"; do [ "$program" -nt "$text" ] || return 1; done
}

# build_client NAME TEXT..: makes the client out/NAME of these, where one of them is newer. It has the stubs of both
# interfaces, and what clients share.
build_client() {
    local name=$1 texts=() text
    shift
    mkdir -p "$out"
    newer "$out/$name" "$@" "$here"/clients.{cc,h} "$interop"/{CosTransactions,Cells}.idl && return
    for text in "$@"; do [[ $text != *.cc ]] || texts+=("$text"); done
    omniidl -bcxx -Wbh=.hh -Wbs=.cc -C"$out" "$interop/CosTransactions.idl" &&
        omniidl -bcxx -Wbh=.hh -Wbs=.cc -C"$out" "$interop/Cells.idl" &&
        g++ -std=c++17 -O1 -Wall -Wno-unused -I"$out" -I"$interop" -I"$here" -o "$out/$name" "${texts[@]}" "$here/clients.cc" \
            "$out"/{CosTransactions,Cells}.cc -lomniDynamic4 -lomniORB4 -lomnithread -lpthread ||
        ended "the client can't be built"
}

# of EXPRESSION: its value.
of() { awk "BEGIN { print $1 }"; }

# say TEXT NUMBER..: prints the text, with a number in each place that is kept for one.
say() { python3 -c 'import sys; print(sys.argv[1].format(*map(float, sys.argv[2:])), flush=True)' "$@"; }

named() { if [ "$1" = 1 ]; then echo "1 client"; else echo "$1 clients"; fi; }
