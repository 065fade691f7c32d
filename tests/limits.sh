#!/usr/bin/env bash
# Sources and bodies that are cut short, and each limit at its end, through the built program. Limits that are lowered are tested
# in crates/test_sources, crates/test_compile, crates/test_wire and crates/test_answers.
set -u
cd "$(dirname "$(readlink -f "$0")")/.." || exit 2
. tests/common.bash
find_program
head='syntax = "proto3"; '

# compiles TITLE WANTED ROOT: the folder's fault, or that it has none where nothing is wanted.
compiles() {
    local faults status wanted=0
    faults=$("$program" compile --root "$3" 2>&1 >"$folder/set")
    status=$?
    [ -z "$2" ] || wanted=1
    if [ "$status" != "$wanted" ] || [ "$faults" != "$2" ]; then
        fail "$1: status $status, $faults"
    fi
}

# Each front of a source: the bytes that it keeps, and the fault of each of these fronts, by column.
source="${head}message A { int32 x = 1; }"
front() {
    printf '%s' "${source:0:$1}" | "$program" describe a.proto >"$folder/out" 2>"$folder/err"
    if [ "$2" = bytes ]; then
        [ -s "$folder/out" ] && [ ! -s "$folder/err" ]
    else
        [ "$(<"$folder/err")" = "a.proto:1:$2" ]
    fi || fail "the first $1 bytes: $(<"$folder/err")"
}
for count in 0 6 7 8 9 17 $(seq 26 44); do front "$count" "$((count + 1)): UnexpectedEnd"; done
for count in 1 2 3 4 5; do front "$count" '1: Unexpected'; done
for count in 10 11 12 13 14 15 16; do front "$count" '10: UnclosedString'; done
for count in 20 21 22 23 24 25; do front "$count" '20: Unexpected'; done
for count in 18 19 45; do front "$count" bytes; done

# Every body of one byte: compressed frames are refused, and all others are cut short.
trailers() { printf "\\x80\\x00\\x00\\x00\\x$(printf %02x $((14 + ${#1})))grpc-status:$1\\r\\n"; }
trailers 12 >"$folder/compressed"
trailers 13 >"$folder/cut"
trailers 8 >"$folder/over"
for byte in $(seq 0 255); do
    wanted=$folder/cut
    [ "$byte" != 1 ] || wanted=$folder/compressed
    printf "\\x$(printf %02x "$byte")" | "$program" answer --root examples | cmp -s - "$wanted" || fail "a body of the byte $byte"
done

# As many empty requests as a body has room for: so many replies as there may be requests, and the status of a limit.
awk 'BEGIN { for (i = 0; i < 209715; i++) printf "%c%c%c%c%c", 0, 0, 0, 0, 0 }' >"$folder/body"
"$program" answer --root examples <"$folder/body" >"$folder/response"
{
    printf '\0\0\0\0\x15\x12\0:\x11\b\3\x12\rempty request' >"$folder/reply"
    for turn in $(seq 14); do
        cat "$folder/reply" "$folder/reply" >"$folder/replies"
        mv "$folder/replies" "$folder/reply"
    done
    cat "$folder/reply" "$folder/over"
} >"$folder/wanted"
[ "$(stat -c %s "$folder/body")" = 1048575 ] || fail 'another body'
[ "$(stat -c %s "$folder/wanted")" = 426004 ] || fail 'other replies'
cmp "$folder/response" "$folder/wanted" || fail 'empty requests'
# A body over its limit: the trailers alone.
head -c 1048577 /dev/zero | "$program" answer --root examples | cmp - "$folder/over" || fail 'a body over its limit'
# A message at its limit, a host of so many bytes, and one of a byte more.
{
    printf '\0\0\1\0\0\x0a\xfc\xff\3'
    head -c 65532 /dev/zero | tr '\0' h
} >"$folder/message"
"$program" answer --root examples <"$folder/message" | tail -c 20 | cmp - <(trailers 0) || fail 'a message at its limit'
{
    printf '\0\0\1\0\1\x0a\xfd\xff\3'
    head -c 65533 /dev/zero | tr '\0' h
} >"$folder/message"
"$program" answer --root examples <"$folder/message" | cmp - "$folder/over" || fail 'a message over its limit'

# Messages in one another.
deep() {
    mkdir "$folder/deep$1"
    { printf '%s' "$head"; for level in $(seq "$1"); do printf 'message A { '; done; for level in $(seq "$1"); do printf '}'; done; } \
        >"$folder/deep$1/a.proto"
}
deep 64
compiles '64 messages in one another' '' "$folder/deep64"
deep 65
compiles '65 messages in one another' 'a.proto:1:788: TooDeep' "$folder/deep65"

# Files.
mkdir "$folder/many"
(cd "$folder/many" && for number in $(seq 16384); do printf '%s' "$head" >"$number.proto"; done)
compiles '16,384 files' '' "$folder/many"
printf '%s' "$head" >"$folder/many/one_more.proto"
compiles '16,385 files' ':1:1: TooManyFiles' "$folder/many"

# The bytes of a file.
mkdir "$folder/long"
{ printf '%s' "$head"; head -c $((4194304 - ${#head})) /dev/zero | tr '\0' ' '; } >"$folder/long/a.proto"
compiles '4,194,304 bytes' '' "$folder/long"
printf ' ' >>"$folder/long/a.proto"
compiles '4,194,305 bytes' 'a.proto:1:1: FileTooLong' "$folder/long"

# The bytes of names.
name=$(printf '%0255d' 0 | tr 0 N)
mkdir "$folder/names"
printf '%s' "${head}message $name {}" >"$folder/names/a.proto"
compiles 'a name of 255 bytes' '' "$folder/names"
printf '%s' "${head}message N$name {}" >"$folder/names/a.proto"
compiles 'a name of 256 bytes' 'a.proto:1:28: NameTooLong' "$folder/names"
printf '%s' "${head}package $name.$name.$name.${name:1}; message A {}" >"$folder/names/a.proto"
compiles 'a package of 1,022 bytes, and no room for a name' 'a.proto:1:1060: NameTooLong' "$folder/names"
printf '%s' "${head}package $name.$name.$name.${name:2}; message A {}" >"$folder/names/a.proto"
compiles 'a full name of 1,023 bytes' '' "$folder/names"

# A chain of 512 files, each of which imports the next: what is imported comes first, and a request for the first file is answered
# with all of them, it first.
mkdir "$folder/chain"
for number in $(seq 0 510); do
    printf '%simport "f%03d.proto";' "$head" $((number + 1)) >"$folder/chain/f$(printf %03d "$number").proto"
done
printf '%s' "$head" >"$folder/chain/f511.proto"
compiles 'a chain of 512 files' '' "$folder/chain"
# The name is the descriptor's first field, and stands after the tag and the length of each.
grep -aoE $'\v\vf[0-9]{3}\.proto' <(tr '\n' '\v' <"$folder/set") | grep -o 'f[0-9]*\.proto' >"$folder/order"
seq 511 -1 0 | awk '{ printf "f%03d.proto\n", $1 }' | cmp - "$folder/order" || fail 'the order of a chain'
if has cc 'the response to a chain was not looked at'; then
    cc -O1 -o "$folder/split_frames" tests/split_frames.c && mkdir "$folder/split" || exit 2
    frame 3 f000.proto | "$program" answer --root "$folder/chain" | "$folder/split_frames" "$folder/split" >"$folder/trailers" ||
        fail 'the response to a chain is no row of frames'
fi
if [ -d "$folder/split" ] && has protoc 'the reply for a chain was not decoded'; then
    protoc --proto_path=tests --decode=grpc.reflection.v1.ServerReflectionResponse reflection.proto <"$folder/split/1" |
        grep -oE '\\n\\nf[0-9]{3}\.proto' | cut -c5- >"$folder/sent"
    { echo f000.proto; seq 511 -1 1 | awk '{ printf "f%03d.proto\n", $1 }'; } | cmp - "$folder/sent" || fail 'the files of a chain'
fi
[ "$failures" = 0 ]
