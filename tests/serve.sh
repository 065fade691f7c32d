#!/usr/bin/env bash
# The HTTP service of the built program, with curl as its client: what requests are answered, clients that break off, and
# thousands of requests in a row. Where curl is not installed nothing is tested.
set -u
cd "$(dirname "$(readlink -f "$0")")/.." || exit 2
. tests/common.bash
needs curl
. tests/serving.bash

mkdir "$folder/F" || exit 2
printf 'syntax = "proto3"; import "b.proto";' | tee "$folder/F/a.proto" >"$folder/F/c.proto"
printf 'syntax = "proto3"; package p; service S {}' >"$folder/F/b.proto"

v1=/grpc.reflection.v1.ServerReflection/ServerReflectionInfo
v1alpha=/grpc.reflection.v1alpha.ServerReflection/ServerReflectionInfo
v1beta=/grpc.reflection.v1beta.ServerReflection/ServerReflectionInfo
web='content-type: application/grpc-web+proto'
t0='80 00 00 00 0F 67 72 70 63 2D 73 74 61 74 75 73 3A 30 0D 0A'
t8='80 00 00 00 0F 67 72 70 63 2D 73 74 61 74 75 73 3A 38 0D 0A'
t12='80 00 00 00 10 67 72 70 63 2D 73 74 61 74 75 73 3A 31 32 0D 0A'
a='0A 07 61 2E 70 72 6F 74 6F 1A 07 62 2E 70 72 6F 74 6F 62 06 70 72 6F 74 6F 33'
b='0A 07 62 2E 70 72 6F 74 6F 12 01 70 32 03 0A 01 53 62 06 70 72 6F 74 6F 33'
request_a='1A 07 61 2E 70 72 6F 74 6F'
reply_a="00 00 00 00 44 12 09 $request_a 22 37 0A 1A $a 0A 19 $b"
from_hex "00 00 00 00 09 $request_a" >"$folder/request"
from_hex "00 00 00 00 09 $request_a 00 00 00 00 09 $request_a" >"$folder/twice"
: >"$folder/nothing"

# asks TITLE STATUS BYTES WORDS..: what curl with these words is answered.
asks() {
    local title=$1 status=$2 wanted=$3 got
    shift 3
    from_hex "$wanted" >"$folder/wanted"
    got=$(curl -s -S --max-time 20 -D "$folder/head" -o "$folder/got" -w '%{http_code}' "$@") || fail "$title: curl ended with $?"
    [ "$got" = "$status" ] || fail "$title: status $got"
    cmp "$folder/wanted" "$folder/got" || fail "$title: another body"
    tr -d '\r' <"$folder/head" | grep -qix 'connection: close' || fail "$title: the connection is not said to close"
}

# The head of the last answer has this line.
has() {
    tr -d '\r' <"$folder/head" | grep -qix "$1" || fail "no line '$1'"
}

start --root "$folder/F"
asks 'a request' 200 "$reply_a $t0" -H "$web" --data-binary "@$folder/request" "$url$v1"
has 'content-type: application/grpc-web+proto'
[ "$(grep -ci '^content-type' "$folder/head")" = 1 ] || fail 'two content types'
asks 'a request to v1alpha' 200 "$reply_a $t0" -H "$web" --data-binary "@$folder/request" "$url$v1alpha"
asks 'a query' 200 "$reply_a $t0" -H "$web" --data-binary "@$folder/request" "$url$v1?x=/y"
asks 'an empty body' 200 "$t0" -H "$web" --data-binary "@$folder/nothing" "$url$v1"
asks 'an empty body to v1alpha' 200 "$t0" -H "$web" --data-binary "@$folder/nothing" "$url$v1alpha"
asks 'a request twice' 200 "$reply_a 00 00 00 00 0D 12 09 $request_a 22 00 $t0" -H "$web" --data-binary "@$folder/twice" "$url$v1"
asks 'v1beta' 200 "$t12" -H "$web" --data-binary "@$folder/request" "$url$v1beta"
has 'content-type: application/grpc-web+proto'
asks 'another path, and GET' 200 "$t12" "$url/x"
asks 'GET' 405 '' "$url$v1"
has 'allow: POST'
asks 'a method of its own' 405 '' -X PRAISE "$url$v1"
asks 'a method in small letters' 405 '' -X post "$url$v1"
asks 'GET of v1alpha without a content type' 405 '' "$url$v1alpha"
asks 'a slash after the path' 200 "$t12" -H "$web" --data-binary "@$folder/nothing" "$url$v1/"
asks 'another case of the path' 200 "$t12" -H "$web" --data-binary "@$folder/nothing" "$url${v1/Server/server}"
for type in 'application/grpc-web' 'Application/gRPC-Web+Proto' 'application/grpc-web; charset=x' 'application/grpc-web+proto 	;'; do
    asks "$type" 200 "$t0" -H "content-type: $type" --data-binary "@$folder/nothing" "$url$v1"
done
for type in 'text/plain' 'application/grpc-web-text' 'application/grpc-web-text+proto' 'application/grpc' 'application/grpc-web+json' 'application/grpc-web,x'; do
    asks "$type" 415 '' -H "content-type: $type" --data-binary "@$folder/nothing" "$url$v1"
done
asks 'no content type' 415 '' -H 'content-type:' --data-binary "@$folder/nothing" "$url$v1"
asks 'a content type that is no text' 415 '' -H "$(printf 'content-type: application/grpc-web\xff')" --data-binary "@$folder/nothing" "$url$v1"
asks 'the first of two content types' 200 "$t0" -H "$web" -H 'content-type: text/plain' --data-binary "@$folder/nothing" "$url$v1"
asks '100-continue' 200 "$reply_a $t0" -H "$web" -H 'expect: 100-continue' --data-binary "@$folder/request" "$url$v1"
has 'HTTP/1.1 100 Continue'
asks 'a chunked body' 200 "$reply_a $t0" -H "$web" -H 'transfer-encoding: chunked' --data-binary "@$folder/request" "$url$v1"
asks 'HTTP/1.0' 200 "$reply_a $t0" --http1.0 -H "$web" --data-binary "@$folder/request" "$url$v1"
head -c 1048577 /dev/zero >"$folder/long"
asks 'a body of one byte over the limit' 200 "$t8" -H "$web" --data-binary "@$folder/long" "$url$v1"
asks 'the same in chunks' 200 "$t8" -H "$web" -H 'transfer-encoding: chunked' --data-binary "@$folder/long" "$url$v1"

# Clients that break off.
exec 3<>"/dev/tcp/127.0.0.1/$port" && printf 'POST %s HT' "$v1" >&3
exec 3>&-
exec 3<>"/dev/tcp/127.0.0.1/$port" && printf 'POST %s HTTP/1.1\r\nhost: h\r\n%s\r\ncontent-length: 14\r\n\r\nabc' "$v1" "$web" >&3
exec 3>&-
exec 3<>"/dev/tcp/127.0.0.1/$port" && printf 'no HTTP at all\r\n\r\n' >&3
exec 3>&-
asks 'a request after clients that broke off' 200 "$reply_a $t0" -H "$web" --data-binary "@$folder/request" "$url$v1"

# Two thousand requests take no more memory than the first hundred.
row() {
    curl -s -S --max-time 20 -H "$web" --data-binary "@$folder/request" -o "$folder/got" -w '%{http_code}\n' "$url$v1?[1-$1]" \
        >"$folder/codes" || fail 'a row of requests broke off'
    [ "$(grep -cx 200 "$folder/codes")" = "$1" ] || fail "not $1 answers"
}
row 100
before=$(resident)
row 2000
after=$(resident)
[ "$after" -le $((before + 512)) ] || fail "memory grew from $before kB to $after kB"
stop

# The service ends by itself, with 0.
ends_by_itself() {
    timeout 20 tail -s 0.1 --pid="$server" -f /dev/null || kill "$server"
    wait "$server" || fail "the service ended with $?"
    server=
}

# An end by a count of connections, broken ones among them.
start --root "$folder/F" --connections 3 --repeat
exec 3<>"/dev/tcp/127.0.0.1/$port" && printf 'POST' >&3
exec 3>&-
asks 'a request twice in mode Repeat' 200 "$reply_a 00 00 00 00 29 12 09 $request_a 22 1C 0A 1A $a $t0" -H "$web" --data-binary "@$folder/twice" "$url$v1"
asks 'GET' 405 '' "$url$v1"
ends_by_itself
[ "$(wc -l <"$folder/line")" = 1 ] && [ ! -s "$folder/faults" ] || fail 'more was printed'
start --root "$folder/F" --connections 0
ends_by_itself

# ---- clients that hold their connections

# hold N: so many clients that connect and send nothing; their descriptors go to `held`.
hold() {
    local turn descriptor
    held=()
    for ((turn = 0; turn < $1; turn++)); do
        exec {descriptor}<>"/dev/tcp/127.0.0.1/$port" && held+=("$descriptor")
    done
}

# let_go: ends them.
let_go() {
    local descriptor
    for descriptor in "${held[@]}"; do
        exec {descriptor}>&-
    done
}

# soon TITLE SECONDS: a request is answered within so many seconds.
soon() {
    from_hex "$reply_a $t0" >"$folder/wanted"
    curl -s --max-time "$2" -o "$folder/got" -H "$web" --data-binary "@$folder/request" "$url$v1" || fail "$1: curl ended with $?"
    cmp -s "$folder/wanted" "$folder/got" || fail "$1: another answer"
}

start --root "$folder/F" --client-seconds 1
hold 1
soon 'an idle client before it, one client at once' 4
let_go
stop
start --root "$folder/F" --clients 64 --client-seconds 1
hold 50
soon 'fifty idle clients before it' 2
sleep 2
# Their time is over: the service has closed them.
for descriptor in "${held[@]}"; do
    timeout 5 cat <&"$descriptor" >/dev/null || fail 'an idle client is held beyond its time'
done
let_go
stop
start --root "$folder/F" --clients 8
hold 7
soon 'seven idle clients of eight' 2
let_go
stop

# A client that does not read its answer of many megabytes, and one that reads it slowly, in time.
mkdir "$folder/many" && awk -v folder="$folder/many" -v files=2000 -f bench/sources.awk
names=$(cd "$folder/many" && find . -name '*.proto' -printf '%P\n')
while IFS= read -r name; do frame 3 "$name"; done <<<"$names" >"$folder/all"
"$program" answer --root "$folder/many" <"$folder/all" >"$folder/wanted"
start --root "$folder/many" --client-seconds 3
exec 3<>"/dev/tcp/127.0.0.1/$port"
{
    printf 'POST %s HTTP/1.1\r\nhost: h\r\n%s\r\ncontent-length: %s\r\n\r\n' "$v1" "$web" "$(wc -c <"$folder/all")"
    cat "$folder/all"
} >&3
curl -s --max-time 20 -o "$folder/got" -H "$web" --data-binary "@$folder/all" "$url$v1" || fail "behind a client that does not read: curl ended with $?"
cmp -s "$folder/wanted" "$folder/got" || fail 'behind a client that does not read: another answer'
[ "$(wc -c <&3)" -lt "$(wc -c <"$folder/wanted")" ] || fail 'a client that does not read gets its answer beyond its time'
exec 3>&-
stop

# Two hundred clients at once, by one at a time and by sixty-four.
printf '\0\0\0\0\2:\0' >"$folder/services"
"$program" answer --root "$folder/many" <"$folder/services" >"$folder/wanted"
for words in '' '--clients 64' '--clients 64 --client-seconds 30 --workers 1'; do
    # shellcheck disable=SC2086
    start --root "$folder/many" $words --connections 200
    for ((turn = 0; turn < 200; turn++)); do
        curl -s --max-time 60 -o "$folder/got.$turn" -H "$web" --data-binary "@$folder/services" "$url$v1" &
        asking[turn]=$!
    done
    for ((turn = 0; turn < 200; turn++)); do
        wait "${asking[turn]}" && cmp -s "$folder/wanted" "$folder/got.$turn" || fail "$words: client $turn of two hundred"
    done
    ends_by_itself
done

# ---- what --verbose tells

# logged LINE..: the service ends by itself, and these lines stand on standard error; the time of an answer is T.
logged() {
    ends_by_itself
    printf '%s\n' "$@" >"$folder/wanted"
    sed 's/, [0-9]*[.][0-9] ms$/, T ms/' "$folder/faults" >"$folder/got"
    same 'the lines of --verbose' "$folder/wanted" "$folder/got"
}

# send TEXT: a client that sends this, and is gone.
send() {
    exec 3<>"/dev/tcp/127.0.0.1/$port" && printf '%b' "$1" >&3
    exec 3>&-
}

head -c 100000 /dev/zero | tr '\0' x >"$folder/large"
start --root "$folder/F" --verbose --connections 10
asks 'a request' 200 "$reply_a $t0" -H "$web" --data-binary "@$folder/request" "$url$v1"
asks 'a request twice' 200 "$reply_a 00 00 00 00 0D 12 09 $request_a 22 00 $t0" -H "$web" --data-binary "@$folder/twice" "$url$v1alpha"
asks 'GET' 405 '' "$url$v1"
asks 'another path' 200 "$t12" -H "$web" --data-binary "@$folder/request" "$url/x%0Ay?z"
asks 'a body of one byte over the limit' 200 "$t8" -H "$web" --data-binary "@$folder/long" "$url$v1"
curl -s -o /dev/null --max-time 20 -H "x: $(<"$folder/large")" "$url/" || fail "a head that is too large: curl ended with $?"
send ''
send 'no HTTP at all\r\n\r\n'
send 'POST / HT'
send "POST $v1 HTTP/1.1\r\nhost: h\r\n$web\r\ncontent-length: 14\r\n\r\nabc"
logged "POST $v1 200 grpc-status 0, 14 bytes, 1 request, 93 bytes, T ms" \
    "POST $v1alpha 200 grpc-status 0, 28 bytes, 2 requests, 111 bytes, T ms" \
    "GET $v1 405, 0 bytes, 0 bytes, T ms" \
    'POST /x%0Ay 200 grpc-status 12, 14 bytes, 0 requests, 21 bytes, T ms' \
    "POST $v1 200 grpc-status 8, 1048577 bytes, 0 requests, 20 bytes, T ms" \
    'connection ended without a request: message head is too large' \
    'connection ended without a request: its client closed it' \
    'connection ended without a request: invalid HTTP version' \
    'connection ended without a request: connection closed before message completed' \
    'connection ended without an answer: the body broke off'

# What standard error refuses is lost, and nothing else.
: >"$folder/line"
"$program" serve --root "$folder/F" --listen 127.0.0.1:0 --verbose --connections 2 >"$folder/line" 2>/dev/full &
server=$!
says_port "$server" "$folder/line" && url=http://127.0.0.1:$port || fail 'with a full standard error the service does not start'
send 'no HTTP at all\r\n\r\n'
asks 'a request whose line is refused' 200 "$reply_a $t0" -H "$web" --data-binary "@$folder/request" "$url$v1"
ends_by_itself

# Clients whose time is over: one that sends nothing, and one that does not take its answer.
start --root "$folder/many" --verbose --client-seconds 2 --connections 2
hold 1
timeout 10 cat <&"${held[0]}" >/dev/null
let_go
exec 3<>"/dev/tcp/127.0.0.1/$port"
{
    printf 'POST %s HTTP/1.1\r\nhost: h\r\n%s\r\ncontent-length: %s\r\n\r\n' "$v1" "$web" "$(wc -c <"$folder/all")"
    cat "$folder/all"
} >&3
"$program" answer --root "$folder/many" <"$folder/all" >"$folder/whole"
logged 'connection ended without a request: the time of its client was over' \
    "POST $v1 200 grpc-status 0, $(wc -c <"$folder/all") bytes, 2000 requests, $(wc -c <"$folder/whole") bytes, T ms" \
    'connection ended before its answer was taken: the time of its client was over'
exec 3>&-

# ends STATUS LINE WORDS..: how the service with these words ends.
ends() {
    local status=$1 line=$2 got
    shift 2
    timeout 20 "$program" serve "$@" >"$folder/line" 2>"$folder/faults"
    got=$?
    [ "$got" = "$status" ] && [ ! -s "$folder/line" ] && grep -qF -e "$line" "$folder/faults" || fail "serve $*: status $got, $(cat "$folder/line" "$folder/faults")"
}
start --root "$folder/F"
ends 3 'device: listen' --root "$folder/F" --listen "127.0.0.1:$port"
stop
ends 3 'device: listen' --root "$folder/F" --listen localhost
ends 3 'device: folder' --root "$folder/none" --listen localhost
ends 2 '--listen' --root "$folder/F"
ends 2 '--clients' --root "$folder/F" --listen 127.0.0.1:0 --clients 1025
ends 2 '--client-seconds' --root "$folder/F" --listen 127.0.0.1:0 --client-seconds 0
ends 2 '--connections' --root "$folder/F" --listen 127.0.0.1:0 --connections many
printf 'syntax = "proto2";' >"$folder/F/a.proto"
ends 1 'a.proto:1:10: ' --root "$folder/F" --listen localhost
timeout 20 "$program" serve --root "$folder" --listen 127.0.0.1:0 >/dev/full 2>"$folder/faults"
[ "$?" = 1 ] || fail 'a fault of the sources comes before one of the output'
rm "$folder/F/a.proto"
timeout 20 "$program" serve --root "$folder/F" --listen 127.0.0.1:0 >/dev/full 2>"$folder/faults"
[ "$?" = 3 ] && grep -qx 'device: output' "$folder/faults" || fail 'an output that fails'

[ "$failures" = 0 ]
