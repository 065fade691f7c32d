#!/usr/bin/env bash
# The descriptors of whole files, byte for byte as protoc wrote them (tests/descriptors/write.sh): each as one of the
# folder, and each that imports nothing by itself as well.
set -u
cd "$(dirname "$(readlink -f "$0")")/.." || exit 2
. tests/common.bash
find_program
"$program" compile --root tests/descriptors >"$folder/set" || fail 'the folder is refused'
split=
if has cc 'the set of the folder was not looked at'; then
    split=$folder/files
    cc -O1 -o "$folder/split_set" tests/split_set.c && mkdir "$split" || exit 2
    "$folder/split_set" "$folder/set" "$split" >"$folder/order" || fail 'what was written for the folder is no set of files'
fi
for source in tests/descriptors/*.proto; do
    name=$(basename "$source")
    wanted=${source%.proto}.hex
    if [ -n "$split" ] && ! (to_hex "$split/$name" && echo) | cmp - "$wanted"; then
        fail "$name: not the bytes that are stored"
    fi
    if ! grep -q '^ *import ' "$source" && ! "$program" describe "$name" <"$source" | cmp - "$wanted"; then
        fail "$name by itself: not the bytes that are stored"
    fi
done
[ "$failures" = 0 ]
