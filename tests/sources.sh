#!/usr/bin/env bash
# Each source of sources.txt through the built program: its descriptor, or the place and the kind of its first fault.
set -u
cd "$(dirname "$(readlink -f "$0")")/.." || exit 2
. tests/common.bash
find_program
rows=0
line=0
while read -r name wanted source; do
    line=$((line + 1))
    if [ -z "$name" ] || [[ $name == \#* ]]; then
        continue
    fi
    rows=$((rows + 1))
    if [[ $wanted == *:*:* ]]; then
        status=1 output='' faults="$name:${wanted%:*}: ${wanted##*:}"$'\n'
    else
        status=0 output=$wanted$'\n' faults=''
    fi
    printf '%b' "$source" | "$program" describe "$name" >"$folder/output" 2>"$folder/faults"
    got=$?
    IFS= read -r -d '' got_output <"$folder/output"
    IFS= read -r -d '' got_faults <"$folder/faults"
    if [ "$got" != "$status" ] || [ "$got_output" != "$output" ] || [ "$got_faults" != "$faults" ]; then
        fail "tests/sources.txt:$line: $name $wanted $source"
        echo "  status $got: $got_output$got_faults"
    fi
done <tests/sources.txt
[ "$rows" -gt 0 ] && [ "$failures" = 0 ]
