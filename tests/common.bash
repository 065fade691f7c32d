# Read by every script, at the top of the repository. `folder` is an empty folder that goes away with the script, and so does what the
# script left running; `failures` counts what `fail` says.
export LC_ALL=C
folder=$(mktemp -d) && folder=$(cd "$folder" && pwd -P) || exit 2
trap 'end_jobs; rm -rf "$folder"' EXIT
failures=0

# Ends what runs in the background. It has ended when the folder goes, so that nothing is written there any more.
end_jobs() {
    local job
    for job in $(jobs -pr); do
        kill "$job"
    done
    wait
} 2>/dev/null

fail() {
    echo "$0: $1"
    failures=$((failures + 1))
}

# skip WHAT: ends a script that tests nothing, since this is not there. By the status ./check counts it as skipped.
skip() {
    echo "$0: skipped, there is no $1"
    exit 77
}

# needs TOOL..: without one of these the script tests nothing.
needs() {
    local tool
    for tool in "$@"; do
        command -v "$tool" >/dev/null || skip "$tool"
    done
}

# untried WHAT PART: says which part of a script is left out, since something is not there. It is false, and the script goes on.
untried() {
    echo "$0: there is no $1, so $2"
    return 1
}

# has TOOL PART: whether a tool is there for a part of the script.
has() {
    command -v "$1" >/dev/null || untried "$1" "$2"
}

# has_protoc PART: whether the protoc is there whose bytes and lines this repository has.
has_protoc() {
    [ "$(protoc --version 2>/dev/null)" = 'libprotoc 3.21.12' ] || untried 'protoc 3.21.12' "$1"
}

# find_python MODULES: sets `python` to one that has these modules, the system's before another. False where none has.
find_python() {
    for python in /usr/bin/python3 python3; do
        "$python" -c "import $1" 2>/dev/null && return
    done
    python=
    return 1
}

# find_program: sets `program` to the built program, which is proved and built first where that is not done. SCHEMA_SERVER may name
# another build.
find_program() {
    program=$PWD/crates/schema_server/out/schema_server
    if [ -n "${SCHEMA_SERVER:-}" ]; then
        program=$(readlink -f "$(command -v "$SCHEMA_SERVER")")
    else
        ./schema_server --help >/dev/null || exit 1
    fi
    if [ ! -x "$program" ]; then
        echo "$0: there is no program ${SCHEMA_SERVER:-$program}"
        exit 2
    fi
}

# find_built CRATE WORDS..: sets `program` to what a crate builds, by `rt run` with these words where a source has come since.
find_built() {
    local crate=$1
    shift
    program=$PWD/crates/$crate/out/$crate
    if ! (. ./build && is_built "$crate"); then
        if ! (cd "crates/$crate" && rt run "$@") </dev/null >"$folder/build" 2>&1; then
            echo "$0: $crate was not built: $(tail -n 3 "$folder/build")"
            exit 1
        fi
        touch -c "$program"
    fi
}

# same TITLE WANTED GOT: both files have the same lines, and some.
same() {
    diff "$2" "$3" >"$folder/differ" && [ -s "$2" ] || fail "$1: $(cut -c 1-200 "$folder/differ")"
}

# to_hex [FILE]: bytes as hexadecimal digits.
to_hex() {
    od -An -v -tx1 "$@" | tr -d ' \n'
}

# from_hex DIGITS: the bytes of hexadecimal digits, among which there may be blanks.
from_hex() {
    printf '%b' "$(sed 's/ //g; s/../\\x&/g' <<<"$1")"
}

# frame NUMBER TEXT: a frame with a request of one field, whose number and text these are.
frame() {
    from_hex "$(printf '00 00 00 00 %02x %02x %02x' $((${#2} + 2)) $(($1 * 8 + 2)) ${#2})"
    printf '%s' "$2"
}
