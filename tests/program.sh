#!/usr/bin/env bash
# The built program as a user runs it: command lines, help, and devices that fail.
set -u
cd "$(dirname "$(readlink -f "$0")")/.." || exit 2
. tests/common.bash
find_program
point=$folder/point.proto
printf 'syntax = "proto3"; message A { int32 x = 1; }' >"$point"

# failed TITLE STATUS: prints what the run of this title came to.
failed() {
    fail "$1: status $2"
    echo "  output: $(cat "$folder/output")"
    echo "  faults: $(cat "$folder/faults")"
}

# Command lines that clap explains: a word of what it says, and the command line.
while read -r word line; do
    # shellcheck disable=SC2086
    "$program" $line <"$point" >"$folder/output" 2>"$folder/faults"
    got=$?
    if [ "$got" != 2 ] || [ -s "$folder/output" ] || ! grep -qF -e "$word" "$folder/faults"; then
        failed "$line" "$got"
    fi
done <<'LINES'
subcommand
NAME describe
b.proto describe a.proto b.proto
compose compose a.proto
--root compile
--root compile --root
0 compile --root . --workers 0
65 compile --root . --workers 65
two compile --root . --workers two
0 compile --root . --cut 0
4097 compile --root . --cut 4097
UnexpectedEnd explain UnexpectedEn
folder explain device: foldr
explain explain Nothing
--output compile --root . --output
LINES

# A word that is no UTF-8: it is shown with its bytes escaped.
for word in $'\xff' $'--root=\xc3' $'a\x80b'; do
    "$program" compile --root . "$word" </dev/null >"$folder/output" 2>"$folder/faults"
    got=$?
    shown=$(printf '%s' "$word" | sed 's/\xff/\\xff/; s/\xc3/\\xc3/; s/\x80/\\x80/')
    if [ "$got" != 2 ] || [ -s "$folder/output" ] || [ "$(head -n 1 "$folder/faults")" != "error: the word '$shown' is no UTF-8" ]; then
        failed "a word that is no UTF-8: $shown" "$got"
    fi
done

# Help: a word of it, and the command line.
while read -r word line; do
    # shellcheck disable=SC2086
    "$program" $line </dev/null >"$folder/output" 2>"$folder/faults"
    got=$?
    if [ "$got" != 0 ] || [ -s "$folder/faults" ] || ! grep -qF -e "$word" "$folder/output"; then
        failed "$line" "$got"
    fi
done <<'LINES'
compile --help
status --help
NAME describe --help
--workers compile --help
--include check --help
FILE serve --help
schema_server --version
TypeNotFound explain TYPENOTFOUND
Cure: explain a.proto:1:32: TypeNotFound
Cure: explain my file.proto:1:32: typenotfound
find explain device: folder
find explain Folder
workers explain out of memory
LINES

# device NAME INPUT OUTPUT WORD..: a run that this device ends.
device() {
    local name=$1 input=$2 output=$3 got
    shift 3
    : >"$folder/output"
    "$program" "$@" <"$input" >"$output" 2>"$folder/faults"
    got=$?
    if [ "$got" != 3 ] || [ -s "$folder/output" ] || [ "$(cat "$folder/faults")" != "device: $name" ]; then
        failed "device: $name: $*" "$got"
    fi
}
mkdir -p "$folder/sources/p"
cp "$point" "$folder/sources/"
device input "$folder" "$folder/output" describe a.proto
device output "$point" /dev/full describe a.proto
device output "$point" /dev/full --help
device output "$point" /dev/full compile --root "$folder/sources"
device output "$point" /dev/full explain
device folder "$point" "$folder/output" compile --root "$folder/none"
device folder "$point" "$folder/output" compile --root "$folder/sources" none.proto
device folder "$point" "$folder/output" compile --root "$point"
# more NAME LINE WORDS..: with --verbose the line of this device has another one behind it.
more() {
    local name=$1 line=$2
    shift 2
    "$program" "$@" --verbose <"$point" >"$folder/output" 2>"$folder/faults"
    got=$?
    if [ "$got" != 3 ] || [ -s "$folder/output" ] || [ "$(cat "$folder/faults")" != "device: $name"$'\n'"$line" ]; then
        failed "device: $name: $* --verbose" "$got"
    fi
}
missing='No such file or directory (os error 2)'
more folder "$folder/none: it is not there" compile --root "$folder/none"
more folder "$folder/none: it is not there" check --root "$folder/none"
more folder "$folder/none: it is not there" answer --root "$folder/none"
more folder "$folder/none: it is not there" serve --root "$folder/none" --listen 127.0.0.1:0
more folder "$folder/sources/none.proto: it is not there" compile --root "$folder/sources" none.proto
more set "$folder/none.pb: $missing" answer --set "$folder/none.pb"
more set "$folder: Is a directory (os error 21)" serve --set "$folder" --listen 127.0.0.1:0
more output "$folder/none/set.pb: $missing" compile --root "$folder/sources" --output "$folder/none/set.pb"
more output "$folder: is a directory" compile --root "$folder/sources" --output "$folder"
more output "$folder/none/set.d: $missing" compile --root "$folder/sources" --output "$folder/set.pb" --dependency_out "$folder/none/set.d"
more listen 'localhost:80: no address and port' serve --root "$folder/sources" --listen localhost:80
more listen '192.0.2.1:80: Cannot assign requested address (os error 99)' serve --root "$folder/sources" --listen 192.0.2.1:80
for command in 'describe a.proto' "compile --root $folder/sources" "check --root $folder/sources" explain; do
    # shellcheck disable=SC2086
    "$program" $command --verbose <"$point" >/dev/full 2>"$folder/faults"
    got=$?
    [ "$got" = 3 ] && [ "$(cat "$folder/faults")" = $'device: output\nstandard output: No space left on device (os error 28)' ] ||
        failed "$command --verbose: $(cat "$folder/faults")" "$got"
done
for command in 'describe a.proto' "answer --root $folder/sources"; do
    # shellcheck disable=SC2086
    "$program" $command --verbose <"$folder" >"$folder/output" 2>"$folder/faults"
    got=$?
    [ "$got" = 3 ] && [ "$(cat "$folder/faults")" = $'device: input\nstandard input: Is a directory (os error 21)' ] ||
        failed "$command --verbose: $(cat "$folder/faults")" "$got"
done
# Where the sources have no fault it adds nothing.
"$program" compile --root "$folder/sources" --verbose >/dev/null 2>"$folder/faults" && [ ! -s "$folder/faults" ] || failed 'compile --verbose' "$?"
# A line that cannot be printed leaves the status.
"$program" describe a.proto <"$folder" >"$folder/output" 2>/dev/full
got=$?
[ "$got" = 3 ] && [ ! -s "$folder/output" ] || failed 'a line that cannot be printed' "$got"

# The version, with the logic that README names.
logic=$(sed -n 's/^With the Rattle kits .*, of one \(logic\) `\(.*\)`:$/\1 \2/p' README.md)
if [ "$("$program" --version)" != "schema_server 1.2.0, $logic" ]; then
    failed "--version: $("$program" --version)" "$?"
fi

# A set that goes to a file: the bytes that the output would have, and nothing else, there or beside it.
mkdir "$folder/written"
set_file=$folder/written/set.pb
"$program" compile --root examples >"$folder/set"
for turn in new again; do
    "$program" compile --root examples --output "$set_file" >"$folder/output" 2>"$folder/faults"
    got=$?
    if [ "$got" != 0 ] || [ -s "$folder/output" ] || [ -s "$folder/faults" ] || ! cmp "$set_file" "$folder/set" ||
        [ "$(ls -A "$folder/written")" != set.pb ]; then
        failed "compile --output, $turn" "$got"
    fi
    echo 'what stood there' >"$set_file"
done
# What stood there stays where the sources have a fault, and where the file cannot be written.
echo 'syntax = "proto3"; message A {' >"$folder/sources/p/half.proto"
"$program" compile --root "$folder/sources/p" --output "$set_file" >"$folder/output" 2>"$folder/faults"
got=$?
if [ "$got" != 1 ] || [ "$(cat "$set_file")" != 'what stood there' ] || [ "$(ls -A "$folder/written")" != set.pb ]; then
    failed 'compile --output of a fault' "$got"
fi
rm "$folder/sources/p/half.proto"
device output "$point" "$folder/output" compile --root examples --output "$folder/none/set.pb"
device output "$point" "$folder/output" compile --root examples --output "$folder/written"
(
    ulimit -f 1
    trap '' XFSZ
    device output "$point" "$folder/output" compile --root examples --output "$set_file"
    [ "$failures" = 0 ]
) || failures=$((failures + 1))
if [ "$(cat "$set_file")" != 'what stood there' ] || [ "$(ls -A "$folder/written")" != set.pb ]; then
    failed 'compile --output where there is no room' "$?"
fi
# What is no file is written to where it stands.
"$program" compile --root examples --output /dev/stdout >"$folder/output" 2>"$folder/faults" || failed '--output /dev/stdout' "$?"
"$program" compile --root examples --output /dev/null || failed '--output /dev/null' "$?"
[ -c /dev/null ] || failed '/dev/null is no device any more' 1

# ./schema_server hands on its words and its input, and ends as this program does.
if [ -z "${SCHEMA_SERVER:-}" ]; then
    ./schema_server describe point.proto <"$point" >"$folder/output" 2>"$folder/faults" || failed './schema_server' "$?"
    "$program" describe point.proto <"$point" | cmp - "$folder/output" || failed './schema_server' 0
    ./schema_server compile --root "$folder/none" >"$folder/output" 2>"$folder/faults"
    got=$?
    [ "$got" = 3 ] && [ "$(<"$folder/faults")" = 'device: folder' ] || failed './schema_server over no folder' "$got"
fi

# A root by another way to it.
printf 'syntax = "proto3"; import "p/c.proto";' >"$folder/sources/p/d.proto"
"$program" compile --root "$folder/sources/../sources/p" >"$folder/output" 2>"$folder/faults"
got=$?
if [ "$got" != 1 ] || [ -s "$folder/output" ] || [ "$(cat "$folder/faults")" != 'd.proto:1:27: ImportMissing' ]; then
    failed 'a root by another way' "$got"
fi

# Ten thousand optional fields, each with a made oneof: the search for free names asks a set, and takes no longer than that.
{
    printf 'syntax = "proto3"; message M { '
    printf 'optional int32 field_%s = %s; ' $(for number in $(seq 10000); do echo "$number $number"; done)
    printf '}'
} >"$folder/many.proto"
timeout 60 "$program" describe many.proto <"$folder/many.proto" >"$folder/output" 2>"$folder/faults"
got=$?
# The names of oneofs alone have an underscore in front: _field_1 to _field_10000.
names=$(grep -o '5f6669656c645f' "$folder/output" | wc -l)
if [ "$got" != 0 ] || [ -s "$folder/faults" ] || [ "$names" != 10000 ] ||
    ! grep -q '5f6669656c645f3130303030620670726f746f33$' "$folder/output"; then
    failed 'many optional fields' "$got"
fi

for example in examples/*.proto; do
    "$program" describe "$(basename "$example")" <"$example" >"$folder/output" 2>"$folder/faults"
    got=$?
    if [ "$got" != 0 ] || [ -s "$folder/faults" ]; then
        failed "$example" "$got"
    fi
done
[ "$failures" = 0 ]
