#!/usr/bin/env bash
# Packages of as many files as are looked at one by one, of one more, and of many: what a file sees of them, through the built
# program. The faults are protoc's as well, by hand from its rule that a package is seen where a file of it is.
set -u
cd "$(dirname "$(readlink -f "$0")")/.." || exit 2
. tests/common.bash
find_program
rows=0

# compiles TITLE WANTED SOURCE: what is wrong with the folder where main.proto is this source, or nothing.
compiles() {
    local faults status wanted=0
    printf 'syntax = "proto3"; %s' "$3" >"$folder/main.proto"
    faults=$("$program" compile --root "$folder" 2>&1 >/dev/null)
    status=$?
    [ -z "$2" ] || wanted=1
    rows=$((rows + 1))
    if [ "$status" != "$wanted" ] || [ "$faults" != "$2" ]; then
        fail "$count files, $1: status $status, $faults"
    fi
}

for count in 2 64 65 300; do
    rm -f "$folder"/*
    for number in $(seq "$count"); do
        printf 'syntax = "proto3"; package acme.part; message M%s { M%s own = 1; }' "$number" "$number" >"$folder/p$number.proto"
    done
    printf 'syntax = "proto3"; import public "p1.proto"; import public "p%s.proto";' "$count" >"$folder/hub.proto"
    printf 'syntax = "proto3"; package acme; message Whole { part.M1 first = 1; } import "p1.proto";' >"$folder/whole.proto"
    printf 'syntax = "proto3"; package other.acme; message Inner {}' >"$folder/inner.proto"
    last="acme.part.M$count"
    compiles 'none of the files is seen' 'main.proto:1:32: TypeNotFound' "message A { $last m = 1; }"
    compiles 'one is imported' '' "import \"p$count.proto\"; message A { $last m = 1; }"
    compiles 'one is imported by a file that is' 'main.proto:1:54: TypeNotFound' "import \"whole.proto\"; message A { acme.part.M1 m = 1; }"
    compiles 'some are imported publicly by a file that is' '' "import \"hub.proto\"; message A { $last m = 1; }"
    compiles 'the file has the package' '' "package acme.part; import \"p1.proto\"; message A { part.M1 m = 1; }"
    compiles 'the file has a package within it' '' "package acme.part.own; import \"hub.proto\"; message A { part.M$count m = 1; }"
    compiles 'an inner package that is seen hides the outer one' 'main.proto:1:89: TypeNotFound' \
        "package other; import \"inner.proto\"; import \"hub.proto\"; message A { $last m = 1; }"
    compiles 'an inner package that is not seen hides nothing' '' "package other; import \"hub.proto\"; message A { $last m = 1; }"
    compiles 'a package is no type' 'main.proto:1:52: TypeNotFound' "import \"hub.proto\"; message A { acme.part m = 1; }"
done

echo "$0: $rows rows"
[ "$failures" = 0 ]
