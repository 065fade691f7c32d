#!/usr/bin/env bash
# Changed sources and changed request bodies through the built program, for SECONDS seconds (120 if left out): with one worker
# and with four the same bytes and the same status, no crash, and an end within five seconds. Where protoc is installed,
# a source that compiles gives protoc's bytes, or protoc refuses it, and its reasons are counted.
#
# usage: tests/mutate.sh [SECONDS [FIRST_SEED]]
set -u
cd "$(dirname "$(readlink -f "$0")")/.." || exit 2
. tests/common.bash
needs cc
find_program
keep=
trap '[ -n "$keep" ] || rm -rf "$folder"' EXIT
seconds=${1:-120}
seed=${2:-1}
cc -O1 -o "$folder/mutate" tests/mutate.c || exit 2
cc -O1 -o "$folder/split_set" tests/split_set.c || exit 2
with_protoc=
has protoc 'nothing was compared with its bytes' && with_protoc=1

# run NAME WORD..: the program's output, what it prints, and its status, in files of this name; five seconds.
run() {
    local name=$1
    shift
    timeout 5 "$program" "$@" <"$folder/input" >"$folder/$name.out" 2>"$folder/$name.err"
    echo $? >"$folder/$name.status"
}

# wrong WHAT: what is wrong with what this seed made, which stays in its folder.
wrong() {
    fail "seed $seed: $1 (kept in $folder)"
    keep=1
}

# agree COMMAND: whether one worker and four gave the same, and ended well.
agree() {
    local status
    status=$(<"$folder/one.status")
    if [ "$status" -ge 124 ]; then
        wrong "$1 ended with $status"
    fi
    cmp -s "$folder/one.out" "$folder/four.out" && cmp -s "$folder/one.err" "$folder/four.err" \
        && cmp -s "$folder/one.status" "$folder/four.status" || wrong "$1: four workers gave something else than one"
}

# A source that compiles, beside protoc's bytes for each file.
beside_protoc() {
    local names
    names=$(cd "$folder/root" && find . -name '*.proto' -printf '%P\n')
    # shellcheck disable=SC2086
    if ! (cd "$folder/root" && timeout 5 protoc -I. --descriptor_set_out="$folder/theirs" $names) 2>"$folder/reasons"; then
        # Its line without file, place and names.
        grep -v warning "$folder/reasons" | head -n 1 | sed 's/^[^ ]*: //; s/"[^"]*"/NAME/g; s/[0-9][0-9]*/N/g' >>"$folder/refused"
        return
    fi
    rm -rf "$folder/ours_split" "$folder/theirs_split"
    mkdir "$folder/ours_split" "$folder/theirs_split"
    "$folder/split_set" "$folder/one.out" "$folder/ours_split" >/dev/null
    "$folder/split_set" "$folder/theirs" "$folder/theirs_split" >/dev/null
    diff -rq "$folder/ours_split" "$folder/theirs_split" >"$folder/differences" \
        || wrong "other bytes than protoc's: $(head -n 1 "$folder/differences")"
}

# A body with a request for services, every file and a symbol.
{
    frame 7 ''
    while IFS= read -r name; do
        frame 3 "$name"
    done <tests/examples/order
    frame 4 shop.orders.Order
} >"$folder/body"

mapfile -t sources < <(cd examples && find . -name '*.proto' -printf '%P\n' | sort)
compiled=0
bodies=0
runs=0
: >"$folder/refused"
# The time of a build does not count.
SECONDS=0
while [ "$SECONDS" -lt "$seconds" ] && [ "$failures" -lt 5 ]; do
    source=${sources[$((seed % ${#sources[@]}))]}
    other=${sources[$((seed / 7 % ${#sources[@]}))]}
    rm -rf "$folder/root"
    cp -r examples "$folder/root"
    "$folder/mutate" "$seed" "examples/$source" "examples/$other" >"$folder/root/$source"
    : >"$folder/input"
    run one compile --root "$folder/root" --workers 1 --cut 1
    run four compile --root "$folder/root" --workers 4 --cut 1
    agree compile
    if [ "$(<"$folder/one.status")" = 0 ]; then
        compiled=$((compiled + 1))
        if [ -n "$with_protoc" ]; then
            beside_protoc
        fi
    fi
    "$folder/mutate" "$seed" "$folder/body" >"$folder/input"
    run one answer --root examples --workers 1 --cut 1
    run four answer --root examples --workers 4 --cut 1
    agree answer
    if [ "$(<"$folder/one.status")" = 0 ]; then
        bodies=$((bodies + 1))
    else
        wrong "answer ended with $(<"$folder/one.status")"
    fi
    seed=$((seed + 1))
    runs=$((runs + 1))
done
echo "$0: $runs sources, $compiled of them compiled; $bodies bodies answered"
if [ -s "$folder/refused" ]; then
    echo "protoc refused $(wc -l <"$folder/refused") sources that compile:"
    sort "$folder/refused" | uniq -c | sort -rn
fi
[ "$runs" -gt 0 ] && [ "$failures" = 0 ]
