#!/usr/bin/env bash
# Each allocation of 27 calls that may have no memory refused in turn, in one process: the call answers that it had none, or as ever,
# and as ever when it is made again at once (crates/test_refusals).
set -u
cd "$(dirname "$(readlink -f "$0")")/.." || exit 2
. tests/common.bash
needs cc
cc -shared -fPIC -O1 -o "$folder/refuse.so" tests/refused_memory.c -ldl || exit 2
find_built test_refusals -- data
env REFUSE_IN_ROUNDS=1 LD_PRELOAD="$folder/refuse.so" "$program" crates/test_refusals/data >"$folder/output" 2>"$folder/faults" \
    9>"$folder/refused"
status=$?
if [ "$status" != 0 ] || [ -s "$folder/faults" ]; then
    fail "status $status, $(<"$folder/faults"), behind $(tail -n 1 "$folder/output")"
else
    # The calls are those of a run without a refusal, and each allocates.
    sed 's/:[^:]*$//' crates/test_refusals/stdout >"$folder/wanted"
    sed 's/:[^:]*$//' "$folder/output" >"$folder/got"
    same 'other calls' "$folder/wanted" "$folder/got"
    ! grep ': 0 refused$' "$folder/output" || fail 'calls of which no allocation was refused'
fi
[ "$failures" = 0 ]
