#!/usr/bin/env bash
# Each folder of folders.txt compiled by the built program with every plan: its set, or its first fault.
set -u
cd "$(dirname "$(readlink -f "$0")")/.." || exit 2
. tests/common.bash
find_program
sources=$folder/sources
rows=0
line=0
wanted=''

# Compiles the folder that was read, if there is one.
compile_folder() {
    [ -d "$sources" ] || return
    local status=0 set='' faults='' plan
    case $wanted in
        device) status=3 faults=$'device: folder\n' ;;
        *:*:*) status=1 faults="${wanted%:*}: ${wanted##*:}"$'\n' ;;
        *) set=$wanted ;;
    esac
    for plan in '' '--workers 1 --cut 1' '--workers 2 --cut 1' '--workers 64 --cut 4096'; do
        rows=$((rows + 1))
        # shellcheck disable=SC2086
        "$program" compile --root "$sources" $plan >"$folder/set" 2>"$folder/faults"
        local got=$? got_set got_faults
        got_set=$(to_hex "$folder/set")
        IFS= read -r -d '' got_faults <"$folder/faults"
        if [ "$got" != "$status" ] || [ "$got_set" != "$set" ] || [ "$got_faults" != "$faults" ]; then
            fail "tests/folders.txt, the folder before line $line, $plan: wanted $wanted"
            echo "  status $got: $got_set $got_faults"
        fi
    done
    rm -rf "$sources"
}

while read -r name source; do
    line=$((line + 1))
    case $name in
        '#'*) ;;
        '') compile_folder ;;
        =)
            wanted=$source
            mkdir "$sources"
            ;;
        *)
            printf -v path "$sources/%b" "$name"
            mkdir -p "${path%/*}"
            case $source in
                '-> '*) ln -s "${source#-> }" "$path" ;;
                *) printf '%b' "$source" >"$path" ;;
            esac
            ;;
    esac
done <tests/folders.txt
compile_folder
[ "$rows" -gt 0 ] && [ "$failures" = 0 ]
