#!/usr/bin/env bash
# The examples compiled as one folder: the descriptors of all of them and of nothing else, in set order, byte for byte
# as protoc wrote them (tests/examples/write.sh).
set -u
cd "$(dirname "$(readlink -f "$0")")/.." || exit 2
. tests/common.bash
find_program

if ! "$program" compile --root examples >"$folder/set"; then
    fail 'the examples are refused'
    exit 1
fi
# By every plan the same bytes.
for workers in 1 2 3 4 64; do
    for cut in 1 2 16 4096; do
        "$program" compile --root examples --workers "$workers" --cut "$cut" | cmp - "$folder/set" ||
            fail "$workers workers, cut $cut: another set"
    done
done
# The names for which bytes are stored, and those that are to come.
(cd tests/examples && find . -name '*.hex' -printf '%P\n') | sed 's/hex$/proto/' | sort >"$folder/stored"
sort tests/examples/order >"$folder/wanted"
same 'the files for which bytes are stored' "$folder/wanted" "$folder/stored"

if has cc 'the files of the set were not looked at'; then
    cc -O1 -o "$folder/split_set" tests/split_set.c && mkdir "$folder/files" || exit 2
    "$folder/split_set" "$folder/set" "$folder/files" >"$folder/order" || fail 'what was written for the examples is no set of files'
    same 'set order' tests/examples/order "$folder/order"
    while IFS= read -r name; do
        (to_hex "$folder/files/$name" && echo) | cmp - "tests/examples/${name%.proto}.hex" || fail "$name: not the bytes that are stored"
    done <"$folder/order"
fi
[ "$failures" = 0 ]
