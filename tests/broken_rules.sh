#!/usr/bin/env bash
# Which rules `check` says that sources break, beside a plain enumeration of the same rules (tests/broken_rules.py), over sources that
# are changed by chance: exactly these, each once and in order. The first is what `compile` tells. `tests/broken_rules.sh SEED COUNT`
# takes others.
set -u
cd "$(dirname "$(readlink -f "$0")")/.." || exit 2
. tests/common.bash
needs python3
find_program
seed=${1:-1} count=${2:-1000}
mkdir "$folder/sources" || exit 2
python3 tests/broken_rules.py --mutate "$seed" "$count" "$folder/sources" || exit 2
python3 tests/broken_rules.py "$folder/sources" >"$folder/wanted" || exit 2

"$program" check --format gcc --root "$folder/sources" >"$folder/report" 2>"$folder/faults"
[ "$?" = 1 ] && [ ! -s "$folder/faults" ] || fail "check: $(<"$folder/faults")"
# Of what is no file by its tokens or its grammar one fault of these kinds is told.
sed -E -e "s|^$folder/sources/||" -e 's/^([^:]*):([0-9]+):([0-9]+): error: .* \[(.*)\]$/\1:\2:\3: \4/' \
    -e 's/^([^:]*):[0-9]+:[0-9]+: (Unexpected|UnexpectedEnd|BadNumber|BadByte|BadEscape|NumberTooBig|UnclosedString|LeftOut|CustomOption|TooDeep)$/\1: no file/' \
    "$folder/report" >"$folder/got"
same "what is told of sources of seed $seed" "$folder/wanted" "$folder/got"

"$program" compile --root "$folder/sources" >/dev/null 2>"$folder/first"
[ "$(cut -d ' ' -f 1 "$folder/first")" = "$(head -n 1 "$folder/report" | sed "s|^$folder/sources/||" | cut -d ' ' -f 1)" ] ||
    fail "compile tells $(<"$folder/first")"
echo "$0: $(grep -c . "$folder/wanted") faults in $count sources"
[ "$failures" = 0 ]
