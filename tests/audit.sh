#!/usr/bin/env bash
# docs/AUDIT.md beside what it speaks of: each file of definitions is named there once, with its number of lines; sums are sums;
# nothing that is to be read needs a file that is not; each law is named; the quoted clause stands in the code; and the
# examples are edits that the gate sees refused. It builds nothing. `tests/audit.sh --write` first puts the numbers of lines and the
# sums into the page.
set -u
cd "$(dirname "$(readlink -f "$0")")/.." || exit 2
. tests/common.bash
page=docs/AUDIT.md

# Prints the page with the numbers that the files have.
counted() {
    find crates/*/specs -name '*.antt' | while IFS= read -r file; do
        name=${file#crates/}
        echo "${name/\/specs\//\/} $(wc -l <"$file") $(grep -cv -e '^use ' -e '^$' "$file")"
    done | awk '
        function grouped(n) { return n < 1000 ? n : sprintf("%d,%03d", n / 1000, n % 1000) }
        NR == FNR { lines[$1] = $2; read[$1] = $3; next }
        /^\|.*\.antt` [0-9]/ {
            rest = $0
            out = ""
            row = read_of_row = 0
            while (match(rest, /`[a-z_]+\/[A-Za-z\/]+\.antt` [0-9]+/)) {
                name = substr(rest, RSTART + 1, RLENGTH - 1)
                sub(/`.*/, "", name)
                out = out substr(rest, 1, RSTART - 1) "`" name "` " lines[name] + 0
                rest = substr(rest, RSTART + RLENGTH)
                row += lines[name]
                read_of_row += read[name]
            }
            if (rest ~ /^ \| [0-9,]+ \|$/) rest = " | " grouped(row) " |"
            else { sum += row; sum_read += read_of_row }
            print out rest
            next
        }
        /^\| \*\*Sum\*\*/ { print "| **Sum** | " grouped(sum) " | " grouped(sum_read) " without imports and empty lines |"; next }
        { print }
    ' - "$page"
}

if [ "${1:-}" = --write ]; then
    counted >"$folder/page" && cp "$folder/page" "$page" || exit 2
fi

# Each named file of definitions: the table's row, or `main` for the table of what to read; crate/File.antt; its lines there. A row
# with a sum of its own ends with it.
awk -F'|' -v sums="$folder/sums" '
    /^\|.*\.antt` [0-9]/ {
        last = $(NF - 1)
        gsub(/[ ,]/, "", last)
        row = "main"
        if (last ~ /^[0-9]+$/) {
            row = "row" NR
            print row, last > sums
        }
        rest = $0
        while (match(rest, /`[a-z_]+\/[A-Za-z\/]+\.antt` [0-9]+/)) {
            named = substr(rest, RSTART + 1, RLENGTH - 1)
            sub(/`/, "", named)
            print row, named
            rest = substr(rest, RSTART + RLENGTH)
        }
    }
    /^\| \*\*Sum\*\*/ {
        sum = $3
        read = $4
        gsub(/[ ,]/, "", sum)
        sub(/without.*/, "", read)
        gsub(/[ ,]/, "", read)
        print "main", sum > sums
        print "read", read > sums
    }
' "$page" >"$folder/named"

# Their numbers of lines, and the sums.
reading=0
total_read=0
: >"$folder/totals"
while read -r row name lines; do
    file=crates/${name%%/*}/specs/${name#*/}
    if [ ! -f "$file" ]; then
        fail "$name: there is no such file"
        continue
    fi
    has=$(wc -l <"$file")
    [ "$has" = "$lines" ] || fail "$name: $has lines, and not $lines"
    echo "$row $has" >>"$folder/totals"
    if [ "$row" = main ]; then
        reading=$((reading + 1))
        total_read=$((total_read + $(grep -cv -e '^use ' -e '^$' "$file")))
    fi
done <"$folder/named"
echo "read $total_read" >>"$folder/totals"
awk '{ total[$1] += $2 } END { for (row in total) print row, total[row] }' "$folder/totals" | sort >"$folder/added"
sort "$folder/sums" >"$folder/told"
same 'sums, of the page and of the files' "$folder/told" "$folder/added"
[ "$(cut -d' ' -f1 "$folder/sums" | sort -u | wc -l)" = 5 ] || fail 'other tables than it knows'

# Every file of definitions is named, once; those that only list modules are none.
find crates/*/specs -name '*.antt' | while IFS= read -r file; do
    if grep -qvE '^(pub )?mod [A-Za-z]+$' "$file"; then
        name=${file#crates/}
        echo "${name/\/specs\//\/}"
    fi
done | sort >"$folder/files"
cut -d' ' -f2 "$folder/named" | sort >"$folder/told"
same 'files of definitions and those named' "$folder/files" "$folder/told"

# What is to be read, or is needed by inner crates or laws, uses nothing of the last row, which need not be read.
last=$(grep '^row' "$folder/named" | tail -n 1 | cut -d' ' -f1)
while read -r row name _; do
    file=crates/${name%%/*}/specs/${name#*/}
    if [ "$row" != "$last" ] && [ -f "$file" ]; then
        echo "$file"
    fi
done <"$folder/named" >"$folder/needed"
while read -r row name _; do
    if [ "$row" = "$last" ]; then
        module=${name#*/}
        module=${name%%/*}.specs.${module%.antt}
        module=${module//\//.}
        user=$(xargs grep -lE "^use Rattle\.${module//./\\.}(\.\{| as |\$)" <"$folder/needed" | head -n 1)
        [ -z "$user" ] || fail "$name: $user uses it"
    fi
done <"$folder/named"

# The laws: public functions that do nothing, or whose comment calls them laws.
find crates/*/src -name '*.rt' ! -path 'crates/test_*' -exec awk '
    FNR == 1 { law = 0; name = "" }
    /^ *\/\/\/ A law:/ { law = 1 }
    /^ *(pub(\(crate\))? )?fn / {
        name = ""
        if (match($0, /pub fn [a-z_]+/)) {
            name = substr($0, RSTART + 7, RLENGTH - 7)
            if (law) print name
        }
        law = 0
    }
    /^ *\{\}$/ && name != "" { print name; name = "" }
' {} + | sort -u >"$folder/laws"
sed -n '/^## Laws/,/^## What a proof/p' "$page" | awk -F'|' '/^\|/ { print $3 }' | tr -cs 'a-z_' '\n' | grep _ | sort >"$folder/told"
same 'laws, of the code and of the page' "$folder/laws" "$folder/told"

# The scripts and the crates of tests that it names are there.
grep -oE 'tests/[a-z_]+\.sh|crates/test_[a-z]+' "$page" | sort -u >"$folder/tests"
while IFS= read -r test; do
    [ -e "$test" ] || fail "there is no $test"
done <"$folder/tests"

# The clause that is read aloud.
squeezed() { tr -s ' \n' ' '; }
clause=$(sed -n '/^ensures /,/^```/p' "$page" | grep -v '^```' | squeezed)
{ [ -n "$clause" ] && squeezed <crates/schema_headline/src/headline.rt | grep -qF -e "$clause"; } \
    || fail 'the clause does not stand in headline.rt'

# The examples: each block that begins with `file: ` is, up to its empty line, the edit that is named above it.
awk -v folder="$folder" '
    match($0, /crates\/[a-z_]+\/must-fail\/[a-z_0-9]+\.edit/) { path = substr($0, RSTART, RLENGTH) }
    /^file: / { print path, ++number; inside = 1 }
    inside && (/^$/ || /^```/) { inside = 0; path = "none" }
    inside { print > (folder "/" number ".edit") }
' "$page" >"$folder/edits"
while read -r path number; do
    cmp -s "$path" "$folder/$number.edit" || fail "$path is not what the page shows"
done <"$folder/edits"
[ "$(wc -l <"$folder/edits")" = 3 ] || fail 'other than three examples'

echo "$0: $reading files to read, $(wc -l <"$folder/named") files, $(wc -l <"$folder/laws") laws"
[ "$failures" = 0 ]
