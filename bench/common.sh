# shellcheck shell=bash disable=SC2034
# What the scripts of this folder share; each of them reads this file. They time the program that is built, on files in memory
# if the machine has such a folder, so that no disk is measured, and print rows of the tables in docs/SPEED.md.
set -eu
# shellcheck source=examples/ports.sh
. "$(dirname "$0")/../examples/ports.sh"
program=$(realpath "${1:-$(dirname "$0")/../crates/sporc/out/sporc}")
if [ -d /dev/shm ] && [ -w /dev/shm ]; then memory=/dev/shm; else memory=${TMPDIR:-/tmp}; fi
work=$(mktemp -d -p "$memory")
trap 'kill $(jobs -p) 2>/dev/null || true; rm -rf "$work"' EXIT
trap 'exit 1' INT TERM
cd "$work"

# row WHAT NUMBER: a row of the table.
row() { printf '| %s | %s |\n' "$1" "$2"; }

# micros: the time, in microseconds.
micros() { echo "${EPOCHREALTIME/[.,]/}"; }

# seconds MICROSECONDS: in seconds, to the millisecond.
seconds() { printf '%d.%03d s' $(($1 / 1000000)) $(($1 / 1000 % 1000)); }

# thousandths N: N thousandths as a number.
thousandths() {
    local n=$1 sign=
    if [ "$n" -lt 0 ]; then
        sign=-
        n=$((-n))
    fi
    printf '%s%d.%03d' "$sign" $((n / 1000)) $((n % 1000))
}

# took COMMAND..: sets `took` to the microseconds that it takes, whatever its status.
took() {
    local begun
    begun=$(micros)
    "$@" >out 2>&1 || true
    took=$(($(micros) - begun))
}

# fewest NAME: sets this variable to `took`, if it is empty or more.
fewest() {
    local -n so_far=$1
    if [ -z "$so_far" ] || [ "$took" -lt "$so_far" ]; then so_far=$took; fi
}

# least TIMES COMMAND..: sets `least` to the fewest microseconds of so many runs.
least() {
    local times=$1
    shift
    least=
    for _ in $(seq "$times"); do
        took "$@"
        fewest least
    done
}

# serve NAME SESSIONS [FOLDER [PROGRAM]]: a server in the background, with its process in `server`, once it listens at `address`;
# of the files of another folder, or of another program, if these are given.
serve() {
    local out=$PWD/server.out
    address=127.0.0.1:$(free_port)
    (cd "${3:-.}" && exec "${4:-$program}" serve "$1" "$address" --sessions "$2") >"$out" 2>&1 &
    server=$!
    await_server
}

# await_server: until `server` listens at `address`.
await_server() {
    await_port "${address##*:}" "$server"
    listens "${address##*:}"
}

# four_members NAME: a document of four members with keys of height 10.
four_members() {
    local m
    for m in 1 2 3 4; do "$program" keygen "$1" "$m" 10 4 >out; done
    "$program" found "$1" 1:admin 2:editor 3:editor 4:editor
}

# in_turn NAME SCRIPT..: the sessions of the four, one after another.
in_turn() {
    local name=$1 m
    shift
    for m in 1 2 3 4; do "$program" client "$name" "$m" "$address" --rounds 5000 "$@" >"out$m"; done
}

# side_by_side NAME SCRIPT..: all at once.
side_by_side() {
    local name=$1 m clients=()
    shift
    for m in 1 2 3 4; do
        "$program" client "$name" "$m" "$address" --rounds 5000 "$@" >"out$m" &
        clients+=($!)
    done
    for m in "${clients[@]}"; do wait "$m"; done
}

# peak PID: the most memory that a process has had, in kilobytes; nothing once it has ended.
peak() { { grep VmHWM "/proc/$1/status" || true; } 2>/dev/null | tr -dc '0-9'; }
