#!/usr/bin/env bash
# `answer` through the built program, by several plans: a stream over examples/ whose replies protoc decodes; each body of
# answers.txt; and the order of faults.
set -u
cd "$(dirname "$(readlink -f "$0")")/.." || exit 2
. tests/common.bash
find_program

# Services, every file in set order, a symbol, and what is not there.
{
    frame 7 ''
    while IFS= read -r name; do
        frame 3 "$name"
    done <tests/examples/order
    frame 4 shop.orders.Order
    frame 3 nowhere.proto
} >"$folder/request"
files=$(wc -l <tests/examples/order)

"$program" answer --root examples --workers 1 --cut 1 <"$folder/request" >"$folder/response" || fail 'no response'
for plan in '2 1' '3 2' '64 4096'; do
    read -r workers cut <<<"$plan"
    "$program" answer --root examples --workers "$workers" --cut "$cut" <"$folder/request" | cmp - "$folder/response" \
        || fail "another response with $workers workers, cut $cut"
done

if has cc 'the response was not looked at'; then
    cc -O1 -o "$folder/split_frames" tests/split_frames.c && mkdir "$folder/replies" || exit 2
    "$folder/split_frames" "$folder/replies" <"$folder/response" >"$folder/trailers" || fail 'the response is no row of frames'
    printf 'grpc-status:0\r\n' | cmp - "$folder/trailers" || fail 'other trailers'
    [ "$(find "$folder/replies" -type f | wc -l)" = $((files + 3)) ] || fail 'not a reply for each request'
fi

# In set order each file is new and its imports were sent, so the replies hold the set, file by file.
if [ -d "$folder/replies" ] && has protoc 'no reply was decoded'; then
    "$program" compile --root examples >"$folder/set" || fail 'no set'
    decoded() {
        protoc --proto_path=tests --decode=grpc.reflection.v1.ServerReflectionResponse reflection.proto <"$folder/replies/$1"
    }
    number=1
    while [ "$number" -le $((files + 3)) ]; do
        decoded "$number" >"$folder/text$number" || fail "protoc does not decode reply $number"
        number=$((number + 1))
    done
    grep -h '^service ' -r examples | wc -l >"$folder/wanted"
    grep -c 'name:' "$folder/text1" | cmp - "$folder/wanted" || fail 'not as many services as the sources declare'
    number=2
    while [ "$number" -le $((files + 1)) ]; do
        [ "$(grep -c 'file_descriptor_proto:' "$folder/text$number")" = 1 ] || fail "reply $number has not one file"
        sed -n 's/^  file_descriptor_proto: /file: /p' "$folder/text$number"
        number=$((number + 1))
    done >"$folder/sent"
    protoc --decode_raw <"$folder/set" >/dev/null || fail 'protoc does not read the set'
    printf 'syntax = "proto3"; message Set { repeated bytes file = 1; }' >"$folder/set.proto"
    protoc --proto_path="$folder" --decode=Set set.proto <"$folder/set" | cmp - "$folder/sent" || fail 'other files than those of the set'
    grep -q 'file_descriptor_response {' "$folder/text$((files + 2))" || fail 'no file for a symbol'
    grep -q 'error_message: "not found"' "$folder/text$((files + 3))" || fail 'a file that is not there'
fi

# The rows of answers.txt, by several plans.
mkdir "$folder/F" "$folder/M" || exit 2
printf 'syntax = "proto3"; import "b.proto";' | tee "$folder/F/a.proto" >"$folder/F/c.proto"
printf 'syntax = "proto3"; package p; service S {}' >"$folder/F/b.proto"
printf 'syntax = "proto3"; message A { int32 x = 1; }' >"$folder/M/a.proto"
rows=0
while IFS='|' read -r sources mode title body wanted; do
    [[ $sources != \#* ]] || continue
    rows=$((rows + 1))
    repeat=()
    [ "$mode" != repeat ] || repeat=(--repeat)
    for plan in '1 1' '1 4096' '2 1' '2 4096' '64 1' '64 4096'; do
        read -r workers cut <<<"$plan"
        got=$(from_hex "$body" | "$program" answer --root "$folder/$sources" --workers "$workers" --cut "$cut" "${repeat[@]}" | to_hex)
        [ "$got" = "$wanted" ] || fail "$title, by $workers workers, cut $cut: $got"
    done
done <tests/answers.txt

# Faults: of the folder, of the sources, of the input, of the output.
told() {
    local status=$1 line=$2
    shift 2
    "$@" >"$folder/output" 2>"$folder/faults"
    local got=$?
    [ "$got" = "$status" ] && [ "$(<"$folder/faults")" = "$line" ] && [ ! -s "$folder/output" ] ||
        fail "$line: status $got, $(<"$folder/faults")"
}
mkdir "$folder/broken" || exit 2
printf 'syntax = "proto3"; message A { X x = 1; }' >"$folder/broken/a.proto"
told 3 'device: folder' "$program" answer --root "$folder/nowhere" <"$folder/request"
told 1 'a.proto:1:32: TypeNotFound' "$program" answer --root "$folder/broken" <"$folder"
told 3 'device: input' "$program" answer --root examples <"$folder"
"$program" answer --root examples <"$folder/request" >/dev/full 2>"$folder/faults"
[ "$?" = 3 ] && [ "$(<"$folder/faults")" = 'device: output' ] || fail 'an output that takes nothing'
"$program" answer </dev/null >/dev/null 2>&1
[ "$?" = 2 ] || fail 'a command line without a root'

echo "$0: $rows rows"
[ "$rows" -gt 0 ] && [ "$failures" = 0 ]
