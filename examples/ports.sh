# shellcheck shell=bash
# Ports of this machine, for the scripts that run servers: each of them reads this file.

# listens PORT: whether somebody listens on this port of this machine.
listens() { grep -q "$(printf ':%04X 0*:0000 0A' "$1")" /proc/net/tcp; }

# free_port: a port on which nobody listens.
free_port() {
    local port
    while
        port=$((20000 + RANDOM % 10000))
        listens "$port"
    do :; done
    echo "$port"
}

# await_port PORT PID: until somebody listens on this port, for a minute at most, or the process has ended.
await_port() {
    local tries=0
    until listens "$1" || [ "$tries" = 6000 ] || ! kill -0 "$2" 2>/dev/null; do
        sleep 0.01
        tries=$((tries + 1))
    done
}
