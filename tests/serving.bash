# Read by the scripts that start the service: how it is started and stopped. A script that needs tools has read tests/common.bash before,
# so that nothing is proved where it is skipped.
declare -F find_program >/dev/null || . tests/common.bash
find_program
server=

# says_port PROCESS FILE: waits until the process has said in the file where it listens, behind which it may have ended; sets `port`.
# False where it ended without this line, or has not said it in a minute.
says_port() {
    local turn line ended=
    for ((turn = 0; turn < 6000; turn++)); do
        kill -0 "$1" 2>/dev/null || ended=1
        if IFS= read -r line <"$2" && [[ $line =~ ^listening\ on\ 127\.0\.0\.1:([0-9]+)$ ]]; then
            port=${BASH_REMATCH[1]}
            return
        fi
        [ -z "$ended" ] || return 1
        sleep 0.01
    done
    return 1
}

# start WORDS..: starts the service at a free port; sets `server`, `port` and `url`.
start() {
    : >"$folder/line"
    "$program" serve --listen 127.0.0.1:0 "$@" >"$folder/line" 2>"$folder/faults" &
    server=$!
    if ! says_port "$server" "$folder/line"; then
        echo "$0: the service was not started: $(cat "$folder/line" "$folder/faults")"
        exit 1
    fi
    url=http://127.0.0.1:$port
}

stop() {
    kill "$server" 2>/dev/null || fail "the service has ended by itself: $(<"$folder/faults")"
    wait "$server" 2>/dev/null
    server=
}

# The kilobytes of memory that the service has.
resident() {
    awk '$1 == "VmRSS:" { print $2 }' "/proc/$server/status"
}
