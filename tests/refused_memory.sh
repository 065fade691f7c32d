#!/usr/bin/env bash
# Each allocation of the program refused in turn: it ends with 4 and `out of memory`, or as if nothing had been refused. A
# refused start of a thread changes nothing.
set -u
cd "$(dirname "$(readlink -f "$0")")/.." || exit 2
. tests/common.bash
needs cc
find_program
cc -shared -fPIC -O1 -o "$folder/refuse.so" tests/refused_memory.c -ldl || exit 2

# sweep WHAT STATUS OUTPUT FAULTS INPUT WORD..: as without a refusal, or out of memory, at each allocation (REFUSE_AT); at each
# start of a thread (REFUSE_THREAD_AT) as without a refusal. OUTPUT and INPUT are written with printf's escapes.
sweep() {
    local what=$1 status=$2 faults=$4 input=$5 at got as_usual no_memory
    printf '%b' "$3" >"$folder/wanted"
    shift 5
    for ((at = 1; at <= 9000; at++)); do
        printf '%b' "$input" |
            env "$what=$at" LD_PRELOAD="$folder/refuse.so" "$program" "$@" >"$folder/output" 2>"$folder/faults" 9>"$folder/refused"
        got=$?
        as_usual=0 no_memory=0
        [ "$got" = "$status" ] && cmp -s "$folder/wanted" "$folder/output" && [ "$(<"$folder/faults")" = "$faults" ] && as_usual=1
        [ "$what" = REFUSE_AT ] && [ "$got $(<"$folder/faults")" = '4 out of memory' ] && [ ! -s "$folder/output" ] && no_memory=1
        if [ ! -s "$folder/refused" ]; then
            [ "$as_usual" = 1 ] || fail "$*: without a refusal: status $got, $(<"$folder/faults")"
            [ "$at" -gt 1 ] || fail "$*: $what: nothing was refused"
            return
        fi
        if [ "$as_usual" = 0 ] && [ "$no_memory" = 0 ]; then
            fail "$*: $what=$at: status $got, $(wc -c <"$folder/output") bytes of output, faults '$(<"$folder/faults")'"
        fi
    done
    fail "$*: no end after 9,000"
}

P='syntax = "proto3"; '
sweep REFUSE_AT 0 '0a07612e70726f746f22110a0141120c0a0178180120012805520178620670726f746f33\n' '' "${P}message A { int32 x = 1; }" describe a.proto
# Made JSON names, and one that an option sets.
sweep REFUSE_AT 0 '0a07612e70726f746f22230a0141120f0a03615f6218012001280552026142120d0a016318022001280552026465620670726f746f33\n' '' \
    "${P}message A { int32 a_b = 1; int32 c = 2 [json_name = \"d\" \"e\"]; }" describe a.proto
sweep REFUSE_AT 1 '' 'e.proto:1:1: UnexpectedEnd' '' describe e.proto
mkdir -p "$folder/sources/p" "$folder/bad"
printf '%simport "p/b.proto"; message A { p.B b = 1; }' "$P" >"$folder/sources/a.proto"
printf '%spackage p; message B {} service S { rpc R(B) returns (B); }' "$P" >"$folder/sources/p/b.proto"
printf '%simport "b.proto";' "$P" >"$folder/bad/a.proto"
# The set as protoc 3.21.12 writes it.
digits=0a310a09702f622e70726f746f12017022030a014232140a0153120f0a015212042e702e421a042e702e42620670726f746f330a350a07612e70726f746f1a09702f622e70726f746f22170a014112120a016218012001280b32042e702e42520162620670726f746f33
set=$(sed 's/../\\x&/g' <<<"$digits")
for words in '--workers 1' '--workers 2 --cut 1'; do
    # shellcheck disable=SC2086 # the words are several
    sweep REFUSE_AT 0 "$set" '' '' compile --root "$folder/sources" $words
done
sweep REFUSE_THREAD_AT 0 "$set" '' '' compile --root "$folder/sources" --workers 2 --cut 1
# So many files that their names are sorted in shares, beside the links: what one worker writes.
mkdir "$folder/shares"
for ((number = 1; number <= 64; number++)); do
    printf '%smessage M%d {}' "$P" "$number" >"$folder/shares/$number.proto"
done
"$program" compile --root "$folder/shares" --workers 1 >"$folder/shares.pb" || fail "64 files by one worker: status $?"
shares=$(od -An -v -tx1 "$folder/shares.pb" | tr -d ' \n' | sed 's/../\\x&/g')
sweep REFUSE_AT 0 "$shares" '' '' compile --root "$folder/shares" --workers 4
sweep REFUSE_THREAD_AT 0 "$shares" '' '' compile --root "$folder/shares" --workers 4
# An import from another folder, and a named file.
mkdir "$folder/alone" && cp "$folder/sources/a.proto" "$folder/alone/"
sweep REFUSE_AT 0 "$set" '' '' compile --root "$folder/alone" --include "$folder/sources" --workers 1
sweep REFUSE_AT 0 "$set" '' '' compile --root "$folder/sources" --workers 2 --cut 1 a.proto
# The same sources with custom options that are skipped, by one worker and by two.
mkdir "$folder/custom" "$folder/custom/p"
printf '%simport "p/b.proto"; import "none.proto"; option (x) = { y: 1 }; message A { p.B b = 1 [(z) = 2]; }' "$P" >"$folder/custom/a.proto"
printf '%spackage p; message B {} extend B { int32 c = 1; } service S { rpc R(B) returns (B); }' "$P" >"$folder/custom/p/b.proto"
for words in '--workers 1' '--workers 2 --cut 1'; do
    # shellcheck disable=SC2086 # the words are several
    sweep REFUSE_AT 0 "$set" '' '' compile --root "$folder/custom" --skip-custom-options $words
done
sweep REFUSE_AT 0 "$set" '' '' compile --root "$folder/custom" --include "$folder/sources" --skip-custom-options a.proto
# Into a file: it is whole in the end, and stands alone in its folder.
mkdir "$folder/written"
sweep REFUSE_AT 0 '' '' '' compile --root "$folder/sources" --workers 1 --output "$folder/written/set.pb"
if [ "$(ls -A "$folder/written")" != set.pb ] || ! printf '%b' "$set" | cmp - "$folder/written/set.pb"; then
    fail "a set that goes to a file: $(ls -A "$folder/written")"
fi
sweep REFUSE_AT 0 "$("$program" explain TooDeep | sed 's/\\/\\\\/g')"'\n' '' '' explain TooDeep
sweep REFUSE_AT 1 '' 'a.proto:1:27: ImportMissing' '' compile --root "$folder/bad" --workers 1
# A report; tests/check.sh shows that it is right.
"$program" check --root "$folder/bad" --workers 1 >"$folder/report"
sweep REFUSE_AT 1 "$(sed 's/\\/\\\\/g' "$folder/report")"'\n' '' '' check --root "$folder/bad" --workers 1
sweep REFUSE_AT 0 '2 files, no fault\n' '' '' check --root "$folder/alone" --include "$folder/sources" --workers 2 --cut 1
# Two requests for the services, whose replies have no file.
body='\0\0\0\0\02:\0\0\0\0\0\02:\0'
reply='\0\0\0\0\015\022\02:\x002\07\n\05\n\03p.S'
for words in '--workers 1' '--workers 2 --cut 1'; do
    # shellcheck disable=SC2086 # the words are several
    sweep REFUSE_AT 0 "$reply$reply"'\0200\0\0\0\017grpc-status:0\r\n' '' "$body" answer --root "$folder/sources" $words
done
sweep REFUSE_THREAD_AT 0 "$reply$reply"'\0200\0\0\0\017grpc-status:0\r\n' '' "$body" answer --root "$folder/sources" --workers 2 --cut 1
# The same over the set, which is whole, cut short, or not there.
printf '%b' "$set" >"$folder/whole.pb"
head -c -1 "$folder/whole.pb" >"$folder/short.pb"
sweep REFUSE_AT 0 "$reply$reply"'\0200\0\0\0\017grpc-status:0\r\n' '' "$body" answer --set "$folder/whole.pb" --workers 2 --cut 1
sweep REFUSE_AT 1 '' "$folder/short.pb: MalformedSet" '' answer --set "$folder/short.pb" --workers 1
sweep REFUSE_AT 3 '' 'device: set' '' answer --set "$folder/none.pb" --workers 1
# A folder with a file that can't be read: reading starts threads, and nothing comes after it.
mkdir "$folder/unread"
for name in a b c; do
    printf '%s' "$P" >"$folder/unread/$name.proto"
done
ln -s nowhere "$folder/unread/d.proto"
sweep REFUSE_AT 3 '' 'device: folder' '' compile --root "$folder/unread" --workers 2 --cut 1
sweep REFUSE_THREAD_AT 3 '' 'device: folder' '' compile --root "$folder/unread" --workers 2 --cut 1
# The examples by four workers, and a body that asks for each of their files: the bytes are those of a run without a refusal,
# which tests/examples.sh and tests/answers.sh show to be right.
printf_bytes() {
    to_hex "$1" | sed 's/../\\x&/g'
}
while IFS= read -r name; do
    frame 3 "$name"
done <tests/examples/order >"$folder/body"
"$program" compile --root examples --workers 1 >"$folder/set"
"$program" answer --root examples --workers 1 <"$folder/body" >"$folder/response"
sweep REFUSE_AT 0 "$(printf_bytes "$folder/set")" '' '' compile --root examples --workers 4 --cut 1
sweep REFUSE_AT 0 "$(printf_bytes "$folder/response")" '' "$(printf_bytes "$folder/body")" answer --root examples --workers 4 --cut 1
# One worker starts no thread, also where names are so many that more workers find them in threads.
mkdir "$folder/many"
for ((file = 0; file < 100; file++)); do
    { printf '%spackage p%d; ' "$P" "$file" && printf 'message M%d { M%d m = 1; } ' {1..50}{,}; } >"$folder/many/$file.proto"
done
for workers in 1 2; do
    REFUSE_THREAD_AT=1 LD_PRELOAD="$folder/refuse.so" "$program" compile --root "$folder/many" --workers "$workers" \
        >"$folder/set_by_$workers" 9>"$folder/refused_by_$workers" || fail "compile --workers $workers"
done
cmp "$folder/set_by_1" "$folder/set_by_2" || fail 'one worker and two: other sets'
[ ! -s "$folder/refused_by_1" ] || fail 'one worker starts a thread'
[ -s "$folder/refused_by_2" ] || fail 'two workers start no thread'
[ "$failures" = 0 ]
