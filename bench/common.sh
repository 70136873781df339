# shellcheck shell=bash disable=SC2034,SC2154  # what sets and reads the names are the scripts that source it
# What the measurements share: the built program, free ports, processes that are ended with the script, and numbers.
# It is sourced by a script that has set -euo pipefail.

here=$(cd "$(dirname "${BASH_SOURCE[0]}")" && pwd)
program=${R2P2_SUITE:-$here/../crates/r2p2_suite/out/r2p2_suite} # the variable names another one

refuse() {
    echo "$*" >&2
    exit 1
}

number_in() { # of $1, whether it is a decimal number from $2 to $3
    [[ $1 =~ ^[1-9][0-9]{0,6}$ ]] && [ "$1" -ge "$2" ] && [ "$1" -le "$3" ]
}

servers=() # processes that this script started and that may still run

end_servers() {
    local each
    for each in "${servers[@]}"; do
        kill "$each" 2>/dev/null || true
        wait "$each" 2>/dev/null || true
    done
    servers=()
}

clean() {
    end_servers
    rm -rf "$work"
}

# Makes the folder $work, puts $1 free ports into `ports`, and compiles into the folder the C programs that the other words name.
prepare() {
    local name
    [ -x "$program" ] || refuse "the program isn't built: there is no $program; rt ci builds it"
    for name in gcc timeout; do
        command -v "$name" >/dev/null || refuse "there is no $name here"
    done
    work=$(mktemp -d)
    trap clean EXIT
    trap 'exit 1' HUP INT TERM
    for name in free_ports "${@:2}"; do
        gcc -O2 -Wall -Wextra -pthread -o "$work/$name" "$here/$name.c" -lm
    done
    "$work/free_ports" "$1" >"$work/ports" || refuse "no datagram goes over 127.0.0.1 here"
    mapfile -t ports <"$work/ports"
}

microseconds() { # of the time of day
    local now=${EPOCHREALTIME/[.,]/}
    echo "$now"
}

rate() { # of $1 events in $2 microseconds, a second
    awk -v events="$1" -v took="$2" 'BEGIN { printf "%d", events * 1000000 / took }'
}

middle() { # the median of the numbers given
    printf '%s\n' "$@" | sort -n | awk '{ each[NR] = $1 } END { print each[int((NR + 1) / 2)] }'
}

ratio() { # of $1 to $2
    awk -v one="$1" -v other="$2" 'BEGIN { printf "%.3f", one / other }'
}
