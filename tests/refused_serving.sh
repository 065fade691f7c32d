#!/usr/bin/env bash
# Each allocation of the service refused in turn, with a client. The service may end, with 4 and `out of memory`; or the connection that
# met it ends, or is answered as ever, and the one after it is served.
set -u
cd "$(dirname "$(readlink -f "$0")")/.." || exit 2
. tests/common.bash
needs cc curl
. tests/serving.bash
cc -shared -fPIC -O1 -o "$folder/refuse.so" tests/refused_memory.c -ldl || exit 2
mkdir "$folder/sources"
printf 'syntax = "proto3"; package p; message A {} service S { rpc R(A) returns (A); }' >"$folder/sources/a.proto"
# A request for the services, and its response: the reply of tests/refused_memory.sh, and the trailers.
printf '\0\0\0\0\02:\0' >"$folder/request"
printf '%b' '\0\0\0\0\015\022\02:\x002\07\n\05\n\03p.S\0200\0\0\0\017grpc-status:0\r\n' >"$folder/wanted"
path=/grpc.reflection.v1.ServerReflection/ServerReflectionInfo

# ask: the response to the request, in a file.
ask() {
    : >"$folder/response"
    curl -s --max-time 5 --data-binary "@$folder/request" -H 'content-type: application/grpc-web+proto' \
        -o "$folder/response" "http://127.0.0.1:$port$path" 2>/dev/null
}

# ended NUMBER STATUS: that the service ended so is told where it may not. A log stands before its line.
ended() {
    [ "$2 $(tail -n 1 "$folder/faults")" = '4 out of memory' ] || fail "allocation $1: status $2, $(<"$folder/faults")"
}

# try NUMBER: one run with this allocation refused, and two connections; `where` is where the refusal came.
try() {
    : >"$folder/refused"
    : >"$folder/line"
    timeout 60 env REFUSE_AT="$1" LD_PRELOAD="$folder/refuse.so" "$program" serve --root "$folder/sources" --listen 127.0.0.1:0 \
        --connections 2 --workers 1 $words >"$folder/line" 2>"$folder/faults" 9>>"$folder/refused" &
    local service=$! status first=0 second=0 met=0
    if ! says_port "$service" "$folder/line"; then
        wait "$service"
        ended "$1" $?
        where=before
        return
    fi
    where=behind
    ask && cmp -s "$folder/response" "$folder/wanted" && first=1
    [ -s "$folder/refused" ] && met=1
    ask && cmp -s "$folder/response" "$folder/wanted" && second=1
    wait "$service"
    status=$?
    [ -s "$folder/refused" ] || where=nowhere
    if [ "$status" != 0 ]; then
        ended "$1" "$status"
        [ "$where" = behind ] || fail "allocation $1: without a refusal: status $status"
    elif { [ "$met" = 1 ] && [ "$second" = 0 ]; } || { [ "$met" = 0 ] && [ "$first" = 0 ]; }; then
        # What came before the refusal, and what came after the connection that met it, is served.
        fail "allocation $1: first $first, second $second"
    fi
}

# sweep WORDS: the first allocation after the start of the service with these words, found by strides, and from there each until none is
# refused.
sweep() {
    words=$1
    at=1
    where=before
    while [ "$where" = before ] && [ "$at" -lt 9000 ]; do
        try "$at"
        at=$((at + 40))
    done
    [ "$where" != before ] || fail 'the service never listened'
    at=$((at - 80))
    [ "$at" -ge 1 ] || at=1
    while [ "$failures" -lt 5 ]; do
        try "$at"
        [ "$where" != nowhere ] || break
        at=$((at + 1))
        tried=$((tried + 1))
        [ "$tried" -lt 18000 ] || fail "no end after $tried"
    done
}

tried=0
sweep ''
sweep '--clients 2 --client-seconds 60'
sweep --verbose
echo "$0: $tried allocations refused in turn"
[ "$tried" -gt 0 ] || fail 'nothing was refused'
[ "$failures" = 0 ]
