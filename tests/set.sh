#!/usr/bin/env bash
# Reflection from a set of descriptors (--set), through the built program: the responses over what `compile` wrote are those over the
# sources, and a file goes out with the bytes that it has in the set. Sets of protoc, of any language version, where it is installed. Sets
# that are refused, with their line and status.
set -u
cd "$(dirname "$(readlink -f "$0")")/.." || exit 2
. tests/serving.bash
top=$PWD
rows=0
cd "$folder" || exit 2

# requests FOLDER SEED: forty requests in frames: of the folder's files, of the names that these declare at the top, of names that nothing
# has, of services and of extensions, in an order that hangs on the seed.
requests() {
    (cd "$1" && find . -name '*.proto' -printf '%P\n' | LC_ALL=C sort | while IFS= read -r name; do
        printf '3 %s\n' "$name"
        awk '/^package / { sub(/;.*/, "", $2); scope = $2 "." } /^(message|enum|service) / { print "4", scope $2; print "6", scope $2 }' "$name"
    done; printf '4 no.where\n3 none.proto\n6 no.where\n7 *\n7 *\n') |
        awk -v seed="$2" 'BEGIN { srand(seed) } { printf "%.9f %s\n", rand(), $0 }' | LC_ALL=C sort | head -n 40 |
        while read -r _ number text; do frame "$number" "$text"; done
    # An extension, and no member.
    from_hex '00 00 00 00 06 2a 04 0a 02 61 62 00 00 00 00 00'
}

# as_sources FOLDER: the set of the folder's sources is answered as the sources are, in both modes.
as_sources() {
    local seed mode
    "$program" compile --root "$1" --output set.pb 2>err || return
    for seed in 1 2 3 4 5; do
        requests "$1" "$seed" >body
        for mode in '' --repeat '--workers 1' '--workers 3 --cut 1 --repeat'; do
            rows=$((rows + 1))
            # shellcheck disable=SC2086
            "$program" answer $mode --root "$1" <body >wanted 2>err || fail "$1: $(<err)"
            # shellcheck disable=SC2086
            "$program" answer $mode --set set.pb <body >got 2>err || fail "$1 as a set: $(<err)"
            cmp -s wanted got || fail "$1, $mode, seed $seed: another response over the set"
        done
    done
}

as_sources "$top/examples"
as_sources "$top/tests/descriptors"
mkdir empty && as_sources empty
mkdir made && awk -v folder=made -v files=60 -f "$top/bench/sources.awk" && as_sources made

# refused KIND WHAT: the set `bad.pb` is refused with this line.
refused() {
    local command got
    rows=$((rows + 1))
    for command in 'answer --set bad.pb' 'serve --set bad.pb --listen 127.0.0.1:0 --connections 0'; do
        # shellcheck disable=SC2086
        timeout 60 "$program" $command </dev/null >out 2>err
        got=$?
        [ "$got" = 1 ] && [ "$(<err)" = "$2" ] && [ ! -s out ] || fail "$1: $command: status $got, $(<err)"
    done
}

# file BYTES: a file of a set, from hexadecimal digits of fewer than 128 bytes.
file() {
    local digits=${1// /}
    from_hex "0a $(printf '%02x' $((${#digits} / 2))) $digits"
}

name_a='0a 07 61 2e 70 72 6f 74 6f'
name_b='0a 07 62 2e 70 72 6f 74 6f'
"$program" compile --root "$top/examples" --output whole.pb
head -c -1 whole.pb >bad.pb && refused 'a set that is cut short' 'bad.pb: MalformedSet'
{ file "$name_a"; file '0a 05 61'; } >bad.pb && refused 'a file that is cut short' 'bad.pb, file[1]: MalformedFile'
{ file "$name_a 22 03 0a 02 41"; } >bad.pb && refused 'a message that is cut short' 'a.proto: MalformedContents'
{ file "$name_a 0b 0c"; } >bad.pb && refused 'a group' 'bad.pb, file[0]: MalformedFile'
file '12 01 70' >bad.pb && refused 'a file without a name' 'bad.pb, file[0]: FileWithoutName'
{ file "$name_b"; file "$name_a"; file "$name_b"; } >bad.pb && refused 'two files of one name' 'b.proto: FileNameTwice'
cat whole.pb whole.pb >bad.pb && refused 'two sets, joined' "$(grep -ao '[a-z/]*[.]proto' whole.pb | LC_ALL=C sort | head -n 1): FileNameTwice"
file "$name_a 1a 07 62 2e 70 72 6f 74 6f" >bad.pb && refused 'an import that is missing' 'a.proto: ImportMissing'
{ file "$name_a 1a 07 62 2e 70 72 6f 74 6f"; file "$name_b 1a 07 61 2e 70 72 6f 74 6f"; } >bad.pb && refused 'a circle' 'a.proto: ImportCycle'
{ file "$name_a 22 03 0a 01 41"; file "$name_b 2a 03 0a 01 41"; } >bad.pb && refused 'a name twice' 'b.proto: NameTwice'
for ((turn = 0; turn <= 16384; turn++)); do printf '\x0a\x07\x0a\x05%05d' "$turn"; done >bad.pb
refused 'more than 16,384 files' 'bad.pb: TooManyFiles'
truncate -s 1073741825 bad.pb && refused 'a set of more than a gigabyte' 'bad.pb: SetTooLong'

# field TAG DIGITS: a field of this tag that holds these bytes, all in hexadecimal digits.
field() {
    local size=$((${#2} / 2))
    if [ "$size" -lt 128 ]; then printf '%s%02x%s' "$1" "$size" "$2"; else printf '%s%02x%02x%s' "$1" $((size % 128 + 128)) $((size / 128)) "$2"; fi
}

# deep N: a set of one file with so many messages within one another, each called A.
deep() {
    local turn inner=
    for ((turn = 0; turn < $1; turn++)); do
        inner=0a0141${inner:+$(field 1a "$inner")}
    done
    from_hex "$(field 0a "${name_a// /}$(field 22 "$inner")")"
}
deep 67 >bad.pb && refused '67 messages within one another' 'a.proto: MalformedContents'
rows=$((rows + 1))
deep 66 >deep.pb
frame 4 "A$(printf '.A%.0s' {2..60})" >body
"$program" answer --set deep.pb <body >got 2>err && grep -qa 'a[.]proto' got || fail "66 messages within one another: $(<err)"

# unread SET: a set that can't be read.
unread() {
    rows=$((rows + 1))
    "$program" answer --set "$1" </dev/null >out 2>err
    got=$?
    [ "$got" = 3 ] && [ "$(<err)" = 'device: set' ] && [ ! -s out ] || fail "$1: status $got, $(<err)"
}
unread none.pb
unread empty
for words in '--set set.pb --root empty' '--set set.pb --include empty' '--set set.pb a.proto' ''; do
    rows=$((rows + 1))
    # shellcheck disable=SC2086
    "$program" answer $words </dev/null >out 2>err
    [ "$?" = 2 ] || fail "answer $words: $(<err)"
done

# A pipe is read, too; the files of an empty set are none.
: >none.set
printf '' | "$program" answer --set /dev/stdin >out 2>err || fail "a pipe: $(<err)"
frame 7 '*' >body
"$program" answer --set none.set <body >got || fail 'an empty set is refused'
"$program" answer --root empty <body >wanted
cmp -s wanted got || fail 'an empty set: another response'

# ---- sets of protoc

if has_protoc 'no set of protoc was served'; then
    mkdir old
    cat >old/old.proto <<'PROTO'
syntax = "proto2";
package old;
import "google/protobuf/descriptor.proto";
message Rule { optional string text = 1; repeated int32 numbers = 2; }
extend google.protobuf.MessageOptions { optional Rule rule = 50001; }
message Old {
  option (rule) = { text: "x" numbers: [1, 2] };
  required int32 x = 1;
  repeated group Part = 2 { optional string name = 1; }
  optional int32 y = 3 [default = -7];
  extensions 100 to 199;
  extend Old { optional string inner = 101; }
  enum Kind { FIRST = 0; }
}
extend Old { optional string outer = 100; }
service Olds { rpc Get(Old) returns (Old); }
PROTO
    protoc -Iold -I/usr/include --include_imports --descriptor_set_out=old.pb old.proto || fail 'protoc refuses old.proto'
    for text in '3 old.proto' '4 old.Old' '4 old.Old.x' '4 old.Old.Part' '4 old.Old.Part.name' '4 old.Old.inner' '4 old.outer' '4 old.Old.FIRST' '4 old.Olds.Get' '4 old.rule'; do
        rows=$((rows + 1))
        frame "${text%% *}" "${text#* }" | "$program" answer --set old.pb >got 2>err || fail "$text: $(<err)"
        # The reply carries old.proto's bytes as the set has them.
        protoc -Iold -I/usr/include --descriptor_set_out=one.pb old.proto
        tail -c +4 one.pb >descriptor
        LC_ALL=C grep -qaF "$(head -c 60 descriptor | tr -d '\0\n')" <(tr -d '\0\n' <got) || fail "$text: no old.proto in the reply"
    done
    # Extensions of old.Old by their numbers, 100 and 101, and not 102. Those of google.protobuf.MessageOptions: 50001.
    for number in 64 65 66; do
        rows=$((rows + 1))
        from_hex "00 00 00 00 0d 2a 0b 0a 07 6f 6c 64 2e 4f 6c 64 10 $number" | "$program" answer --set old.pb >got 2>err || fail "extension $number: $(<err)"
        grep -qa 'old[.]proto' got && found=yes || found=no
        [ "$number $found" = "64 yes" ] || [ "$number $found" = "65 yes" ] || [ "$number $found" = "66 no" ] || fail "extension $number of old.Old is found: $found"
    done
    frame 6 old.Old | "$program" answer --set old.pb >got && LC_ALL=C grep -qaP '\x12\x02\x64\x65' got || fail 'the numbers of the extensions of old.Old'
    frame 6 google.protobuf.MessageOptions | "$program" answer --set old.pb >got && LC_ALL=C grep -qaP '\x12\x03\xd1\x86\x03' got || fail 'the numbers of the extensions of MessageOptions'
    frame 7 '*' | "$program" answer --set old.pb >got && grep -qa 'old[.]Olds' got || fail 'the service of a proto2 file is not listed'
    protoc -Iold -I/usr/include --descriptor_set_out=bad.pb old.proto && refused 'a set of protoc without imports' 'old.proto: ImportMissing'
fi

start --set set.pb
curl -sS --data-binary @body -H 'content-type: application/grpc-web+proto' \
    "$url/grpc.reflection.v1.ServerReflection/ServerReflectionInfo" >got || fail 'serve: no reply'
"$program" answer --set set.pb <body >wanted
cmp -s wanted got || fail 'serve: another reply'
stop

echo "$0: $rows rows"
[ "$failures" = 0 ]
