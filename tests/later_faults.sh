#!/usr/bin/env bash
# Which faults of imports, names and types `check` says that folders have, beside a plain enumeration of the same definitions
# (tests/later_faults.py), over folders that are made by chance: exactly these, each once and in order. The first is what `compile`
# tells. `tests/later_faults.sh SEED COUNT` takes others.
set -u
cd "$(dirname "$(readlink -f "$0")")/.." || exit 2
. tests/common.bash
needs python3
find_program
seed=${1:-1} count=${2:-300}
mkdir "$folder/made" || exit 2
python3 tests/later_faults.py "$seed" "$count" "$folder/made" || exit 2

for wanted in "$folder"/made/*.wanted; do
    root=${wanted%.wanted}
    "$program" check --format gcc --root "$root" >"$folder/report" 2>"$folder/faults"
    got=$?
    [ -s "$wanted" ] && status=1 || status=0
    [ "$got" = "$status" ] && [ ! -s "$folder/faults" ] || fail "$root: status $got, $(<"$folder/faults")"
    sed -E -e "s|^$root/||" -e 's/^([^:]*:[0-9]+:[0-9]+): error: .* \[(.*)\]$/\1: \2/' "$folder/report" >"$folder/got"
    diff "$wanted" "$folder/got" >"$folder/differ" ||
        fail "what is told of folder ${root##*/} of seed $seed: $(cut -c 1-200 "$folder/differ")"
    "$program" compile --root "$root" >/dev/null 2>"$folder/first"
    [ "$(<"$folder/first")" = "$(head -n 1 "$wanted")" ] || fail "$root: compile tells $(<"$folder/first")"
done
echo "$0: $(cat "$folder"/made/*.wanted | grep -c .) faults in $count folders"
[ "$failures" = 0 ]
