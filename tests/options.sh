#!/usr/bin/env bash
# Each option of crates/proto_desc/src/rules.rt beside what else tells of it: the table of docs/LANGUAGE.md has the same options of the
# same elements, with their numbers and the words of their values; the page of examples/clients has their numbers and kinds of values.
# It builds nothing. `tests/options.sh --write` first puts the rows into docs/LANGUAGE.md.
set -u
cd "$(dirname "$(readlink -f "$0")")/.." || exit 2
. tests/common.bash
page=docs/LANGUAGE.md

# Prints ELEMENT WORD NUMBER KIND for each row of the rules, in their order; the number of `json_name`, which has none, is `-`.
awk '
    /^pub const [A-Z_]+: &str = "/ { split($0, part, "\""); word[$3] = part[2]; next }
    /^static [A-Z_]+_RULES:/ { element = $2; sub(/_RULES:$/, "", element) }
    {
        rest = $0
        while (match(rest, /rule!\([^!]*, [A-Za-z]+\)/)) {
            row = substr(rest, RSTART + 6, RLENGTH - 7)
            rest = substr(rest, RSTART + RLENGTH)
            split(row, field, /, /)
            name = field[1]
            if (name ~ /^"/) gsub(/"/, "", name)
            else name = word[name ":"]
            gsub(/Some\(|\)/, "", field[2])
            print element, name, field[2] == "None" ? "-" : field[2], field[3]
        }
    }
' crates/proto_desc/src/rules.rt >"$folder/rows"

# Prints KIND WORD NUMBER for each word that stands for a value.
awk '
    /^fn [a-z_]+_number\(/ { kind = $2; sub(/_number\(.*/, "", kind) }
    /^        "[A-Za-z_]+" => Some\([0-9]+\),$/ { split($0, part, "\""); number = $3; gsub(/[^0-9]/, "", number); print kind, part[2], number }
' crates/proto_desc/src/rules.rt >"$folder/words"

# Prints the rows of the page's table.
table() {
    awk -v words="$folder/words" '
        function small(name) { gsub(/[A-Z]/, "_&", name); return tolower(substr(name, 2)) }
        BEGIN {
            while ((getline line <words) > 0) {
                split(line, part, " ")
                if (part[1] != "bool") values[part[1]] = values[part[1]] (values[part[1]] == "" ? "" : ", ") part[2] " " part[3]
            }
        }
        {
            option = $2
            if ($3 != "-") option = option " " $3
            if (small($4) in values) option = option " (" values[small($4)] ")"
            listed[$1] = listed[$1] (listed[$1] == "" ? "" : ", ") option
        }
        END {
            count = split("FILE=file;MESSAGE=message;FIELD=field, map field, member of a oneof;ONEOF=oneof;ENUM=enum;" \
                "ENUM_VALUE=enum value;SERVICE=service;METHOD=method", element, ";")
            for (at = 1; at <= count; at++) {
                split(element[at], name, "=")
                print "| " name[2] " | " (name[1] in listed ? listed[name[1]] : "none") " |"
            }
        }
    ' "$folder/rows"
}
table >"$folder/table"

if [ "${1:-}" = --write ]; then
    awk -v table="$folder/table" '
        /^\| Element \| Options \|$/ { print; getline; print; while ((getline line <table) > 0) print line; inside = 1; next }
        inside && /^\|/ { next }
        { inside = 0; print }
    ' "$page" >"$folder/page" && cp "$folder/page" "$page" || exit 2
fi

sed -n '/^| Element | Options |$/,/^$/p' "$page" | sed -e 1,2d -e '$d' | diff - "$folder/table" ||
    fail "$page has another table of options: tests/options.sh --write puts it there"

# What the browser's page shows: a message of options for each element, with a field for each number.
while read -r element word number kind; do
    [ "$number" != - ] || continue
    message=$(sed -E 's/(^|_)([A-Z])([A-Z]*)/\2\L\3/g' <<<"$element")Options
    case $kind in
    Text) type=quoted ;;
    Bool) type=bool ;;
    JsType) type=JSType ;;
    *) type=$kind ;;
    esac
    awk -v message="  $message: {" 'index($0, message) == 1 { inside = 1 } inside { print } inside && /}/ { exit }' examples/clients/explore.html |
        grep -qw -- "$number: \"$word $type\"" || fail "examples/clients/explore.html: $message has no $number: \"$word $type\""
done <"$folder/rows"
while read -r kind word number; do
    [ "$kind" != bool ] || continue
    grep -q -- "\"$word\"" examples/clients/explore.html || fail "examples/clients/explore.html has no $word ($number)"
done <"$folder/words"

rows=$(wc -l <"$folder/rows")
echo "$0: $rows options"
[ "$rows" -gt 0 ] && [ "$failures" = 0 ]
