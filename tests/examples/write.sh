#!/usr/bin/env bash
# Writes the descriptor of each example as protoc gives it, in hexadecimal digits. Run it where protoc is: the files
# that stand here are those of protoc 3.21.12 (Debian's protobuf-compiler 3.21.12-3+deb12u1). `order` is written by
# hand: the examples by rank, and by the bytes of their names where ranks are the same (docs/LANGUAGE.md, "Imports").
set -eu
cd "$(dirname "$(readlink -f "$0")")"
sources=../../examples
set_file=$(mktemp)
trap 'rm -f "$set_file"' EXIT
find . -name '*.hex' -delete
find "$sources" -name '*.proto' -printf '%P\n' | while IFS= read -r name; do
    protoc --proto_path="$sources" --descriptor_set_out="$set_file" "$name"
    # The set has one file: its tag, its length as a varint, its bytes.
    head=2
    while [ "$(od -An -tu1 -j "$((head - 1))" -N 1 "$set_file")" -ge 128 ]; do
        head=$((head + 1))
    done
    mkdir -p "$(dirname "$name")"
    tail -c "+$((head + 1))" "$set_file" | od -An -v -tx1 | tr -d ' \n' >"${name%.proto}.hex"
    echo >>"${name%.proto}.hex"
done
