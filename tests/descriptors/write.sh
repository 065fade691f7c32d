#!/usr/bin/env bash
# Writes the descriptor of each source here as protoc gives it, in hexadecimal digits. Run it where protoc is: the files
# that stand here are those of protoc 3.21.12 (Debian's protobuf-compiler 3.21.12-3+deb12u1).
set -eu
cd "$(dirname "$(readlink -f "$0")")"
set_file=$(mktemp)
trap 'rm -f "$set_file"' EXIT
for source in *.proto; do
    protoc --proto_path=. --descriptor_set_out="$set_file" "$source"
    # The set has one file: its tag, its length as a varint, its bytes.
    head=2
    while [ "$(od -An -tu1 -j "$((head - 1))" -N 1 "$set_file")" -ge 128 ]; do
        head=$((head + 1))
    done
    tail -c "+$((head + 1))" "$set_file" | od -An -v -tx1 | tr -d ' \n' >"${source%.proto}.hex"
    echo >>"${source%.proto}.hex"
done
