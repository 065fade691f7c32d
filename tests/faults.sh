#!/usr/bin/env bash
# Each entry of docs/FAULTS.md and docs/DIFFERENCES.md through the built program: the line that it prints for the entry's source, or
# that the source compiles, and its status; and, where protoc 3.21.12 is installed, what protoc says of the same source. Each
# kind has an entry.
set -u
cd "$(dirname "$(readlink -f "$0")")/.." || exit 2
. tests/common.bash
find_program
entries=0

with_protoc=
has_protoc 'what it says of the sources was not compared' && with_protoc=1

# Each entry's parts in files of its number: the source or the commands, the line, and what protoc says.
awk -v folder="$folder" '
    /^### / { title = substr($0, 5); print ++number, title; part = ""; next }
    part != "" && /^```$/ { close(part); part = ""; next }
    part != "" { print > part; next }
    /^```/ {
        language = substr($0, 4)
        part = folder "/" number "." (language == "" ? "line" : language)
        printf "" > part
        next
    }
    /^protoc accepts it\.$/ { print "" > (folder "/" number ".protoc") }
    /^protoc: / { said = $0; sub(/^protoc: `+/, "", said); sub(/`+$/, "", said); print said > (folder "/" number ".protoc") }
' docs/FAULTS.md docs/DIFFERENCES.md >"$folder/titles"

while read -r number title; do
    if [ ! -f "$folder/$number.line" ]; then
        continue
    fi
    entries=$((entries + 1))
    root=$folder/root
    rm -rf "$root"
    mkdir "$root"
    if [ -f "$folder/$number.sh" ]; then
        (cd "$root" && bash "$folder/$number.sh")
    else
        cp "$folder/$number.proto" "$root/a.proto"
    fi
    if [ -f "$root/a.pb" ]; then
        (cd "$root" && "$program" answer --set a.pb </dev/null >"$folder/out" 2>"$folder/err")
    else
        "$program" compile --root "$root" >"$folder/out" 2>"$folder/err"
    fi
    status=$?
    if [ "$(<"$folder/$number.line")" = compiles ]; then
        if [ "$status" != 0 ] || [ -s "$folder/err" ]; then
            fail "$title: status $status, $(head -n 1 "$folder/err")"
        fi
    elif [ "$status" != 1 ] || [ -s "$folder/out" ] || ! cmp -s "$folder/err" "$folder/$number.line"; then
        fail "$title: status $status, $(head -n 1 "$folder/err")"
    fi
    if [ -n "$with_protoc" ] && [ -f "$folder/$number.protoc" ]; then
        (cd "$root" && protoc -I. --descriptor_set_out=/dev/null *.proto) 2>&1 | grep -iv warning | head -n 1 >"$folder/said"
        [ -s "$folder/said" ] || echo >"$folder/said"
        cmp -s "$folder/said" "$folder/$number.protoc" || fail "$title: protoc says $(<"$folder/said")"
    fi
done <"$folder/titles"

# `explain` prints the entries of docs/FAULTS.md but for what protoc says, sources and lines set in by four blanks.
awk -v folder="$folder" '
    /^### / { close(entry); entry = folder "/" substr($0, 5) ".entry"; print substr($0, 5) > entry; next }
    /^## / { close(entry); entry = "" }
    entry == "" { next }
    /^```/ { inside = !inside; next }
    !inside && /^protoc/ { next }
    { line = inside && $0 != "" ? "    " $0 : $0 }
    line == "" { blank = 1; next }
    { if (blank) print "" > entry; blank = 0; print line > entry }
' docs/FAULTS.md
for written in table:src/table.rt specs:specs/Table.antt answers:proofs/table/text_of_kind/Answers.antt; do
    docs/explanations "${written%%:*}" | cmp - "crates/schema_explanation/${written#*:}" ||
        fail "${written#*:} is not what docs/explanations writes"
done
"$program" explain >"$folder/kinds" || fail "explain: status $?"
cut -c 1-20 "$folder/kinds" | sed 's/ *$//' | diff <(sed -n 's/^### //p' docs/FAULTS.md) - || fail 'explain lists other entries than the page'
while IFS= read -r listed; do
    kind=$(sed 's/ *$//' <<<"${listed:0:20}")
    "$program" explain "$kind" >"$folder/explained" || fail "explain $kind: status $?"
    diff "$folder/$kind.entry" "$folder/explained" || fail "explain $kind says something else than the page"
    [ "${listed:20}" = "$(sed -n 3p "$folder/$kind.entry")" ] || fail "explain lists $kind with another meaning"
    # The kind in other letters, the words of a line, and the end of a line that was printed.
    # shellcheck disable=SC2086
    for words in "${kind^^}" "${kind,,}" "p/a b.proto:1:32: $kind"; do
        "$program" explain $words | cmp -s - "$folder/explained" || fail "explain $words says something else"
    done
done <"$folder/kinds"

# The kinds of the program, of sources and of sets, are those of the page.
{
    sed -n '/^pub enum Kind {/,/^}/s/^    \([A-Z][A-Za-z0-9]*\) = .*/\1/p' crates/proto_base/src/kind.rt
    sed -n '/^pub enum SetKind {/,/^}/s/^    \([A-Z][A-Za-z0-9]*\),$/\1/p' crates/proto_sets/src/fault.rt
} | sort -u >"$folder/named"
sed -n 's/^### //p' docs/FAULTS.md | grep -v ' ' | sort | diff "$folder/named" - || fail 'other kinds than the program has'
echo "$0: $entries entries"
[ "$entries" -gt 0 ] && [ "$failures" = 0 ]
