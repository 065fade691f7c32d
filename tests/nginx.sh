#!/usr/bin/env bash
# The guide's upstream of several servers, in an nginx before two of them, of which one is held by a client that sends nothing: each
# request is answered all the same.
set -u
cd "$(dirname "$(readlink -f "$0")")/.." || exit 2
. tests/common.bash
needs nginx curl
. tests/serving.bash
. tests/nginx.bash

# block MARK: the lines of the guide's block that is marked so.
block() {
    awk -v mark="$1" '$0 == "```" { inside = 0 } inside; $0 == "```" mark { inside = 1 }' docs/GUIDE.md
}

start --root examples
held=$server
held_port=$port
start --root examples
block upstream | sed "s/:8081/:$held_port/; s/:8082/:$port/" >"$folder/upstream"
block balanced | sed 's/5s/1s/' >"$folder/balanced"
[ -s "$folder/upstream" ] && [ -s "$folder/balanced" ] || fail 'the guide has no such blocks'
open_gateway "unix:$folder/nginx/socket" "$folder/balanced" "$folder/upstream" || fail "nginx was not started: $(<"$folder/nginx/faults")"
printf '\0\0\0\0\2:\0' >"$folder/request"
"$program" answer --root examples <"$folder/request" >"$folder/wanted"

# asked TITLE: ten requests are answered, each within three seconds.
asked() {
    local turn
    for ((turn = 0; turn < 10; turn++)); do
        curl -s --max-time 3 --unix-socket "$folder/nginx/socket" -o "$folder/got" --data-binary "@$folder/request" \
            -H 'content-type: application/grpc-web' "http://gateway/grpc.reflection.v1.ServerReflection/ServerReflectionInfo" ||
            fail "$1: request $turn: curl ended with $?"
        cmp -s "$folder/got" "$folder/wanted" || fail "$1: request $turn: another answer"
    done
}

asked 'both servers are free'
exec 3<>"/dev/tcp/127.0.0.1/$held_port"
asked 'one server is held'
exec 3>&-
kill "$held" && wait "$held" 2>/dev/null
asked 'one server is gone'
close_gateway
stop
[ "$failures" = 0 ]
