# Read by the scripts that follow a page as somebody reads it: its blocks marked `sh`, in their order in one bash session. Each has to
# end with status 0; a bare block is what each of the `sh` blocks directly before it prints. A block with another mark is not run, and
# neither is one for a tool that is not installed. In the end no process is left, nobody has the page's port, and nothing that was
# made is empty. Where the page's port is taken, a free one stands for it.
. tests/serving.bash
. tests/left.bash

mkdir "$folder/blocks" "$folder/path" || exit 2
if find_python google.protobuf; then
    printf '#!/bin/sh\nexec %s -B "$@"\n' "$(command -v "$python")" >"$folder/path/python3"
    chmod +x "$folder/path/python3"
fi
PATH=$folder/path:$PATH

# blocks PAGE: each block in a file of its number, and in NUMBER.wanted what it prints; sets `count`.
blocks() {
    awk -v blocks="$folder/blocks/" '
        inside && /^```$/ { inside = 0; if (bare) waiting = 0; next }
        inside && bare { for (i = 1; i <= waiting; i++) print > (blocks shells[i] ".wanted"); next }
        inside { print > block; next }
        /^```$/ {
            inside = bare = 1
            if (!waiting) print "a bare block without a block that prints it: line " NR
            for (i = 1; i <= waiting; i++) printf "" > (blocks shells[i] ".wanted")
            next
        }
        /^```/ {
            inside = 1
            bare = 0
            number++
            block = blocks number "." substr($0, 4)
            printf "" > block
            if ($0 == "```sh") shells[++waiting] = number; else waiting = 0
            next
        }
        /./ { waiting = 0 }
        END { print number > (blocks "count") }
    ' "$1" >"$folder/blocks/unasked"
    [ ! -s "$folder/blocks/unasked" ] || fail "$(<"$folder/blocks/unasked")"
    count=$(<"$folder/blocks/count")
}

# is_there TOOL: whether a tool is installed, with what the pages need of protobuf for it.
is_there() {
    case $1 in
    curl | protoc | make | git) command -v "$1" ;;
    python3) [ -x "$folder/path/python3" ] ;;
    g++) command -v g++ && echo '#include <google/protobuf/descriptor.h>' | g++ -E -x c++ - ;;
    go) command -v go && [ -d /usr/share/gocode/src/google.golang.org/protobuf ] ;;
    java) command -v javac && [ -f /usr/share/java/protobuf.jar ] ;;
    /usr/include) [ -d "$1/google/protobuf" ] ;;
    esac >/dev/null 2>&1
}

# Takes away the blocks for tools that are not installed, and says of which.
leave_out() {
    local tool block
    for tool in curl protoc python3 g++ go java make git /usr/include; do
        for block in "$folder"/blocks/*.sh; do
            if grep -qE "(^|[( ])${tool//+/\\+}([ /]|$)" "$block" && ! is_there "$tool"; then
                untried "$tool, or no protobuf for it" "this was not run: $(head -n 1 "$block")"
                rm "$block"
            fi
        done
    done
}

# is_free PORT: whether the service can listen at a port.
is_free() {
    "$program" serve --root examples --listen "127.0.0.1:$1" --connections 0 >/dev/null 2>&1
}

# follow FOLDER: runs the blocks in this folder.
follow() {
    local number block at=8080 runs=0 rest
    if ! is_free "$at"; then
        start --root examples
        stop
        at=$port
    fi
    leave_out
    {
        echo "cd '$1'"
        for ((number = 1; number <= count; number++)); do
            block=$folder/blocks/$number
            [ -f "$block.sh" ] || continue
            echo '{'
            sed "s/:8080/:$at/" "$block.sh"
            echo "} >'$block.got' 2>&1; echo \$? >'$block.status'"
        done
    } >"$folder/session"
    timeout 600 bash "$folder/session" </dev/null

    for ((number = 1; number <= count; number++)); do
        block=$folder/blocks/$number
        [ -f "$block.sh" ] || continue
        runs=$((runs + 1))
        # Without what bash says of a service that was stopped, which it does then or later.
        sed -i '/session: line [0-9]*: .*schema_server serve /d' "$block.got"
        if [ "$(cat "$block.status" 2>/dev/null)" != 0 ]; then
            fail "status $(cat "$block.status" 2>/dev/null) of
$(cat "$block.sh" "$block.got")"
        elif [ -f "$block.wanted" ]; then
            sed "s/:8080/:$at/" "$block.wanted" | diff - "$block.got" || fail "other lines than the page's of
$(cat "$block.sh")"
        fi
    done
    [ "$runs" -gt 0 ] || fail 'no block was run'

    rest=$(left "$1")
    [ -z "$rest" ] || fail "left running: $rest"
    while IFS=: read -r number rest; do
        [ -z "$number" ] || kill "$number"
    done <<<"$rest"
    is_free "$at" || fail "port $at is still taken"
    rest=$(find "$1" -name .git -prune -o -newer "$folder/session" \( -type f -empty -o -type p \) -print)
    [ -z "$rest" ] || fail "left empty: $rest"
    echo "$0: $runs blocks run"
}
