#!/usr/bin/env bash
# What is installed beside the program, below share/, by the lines of docs/GUIDE.md. man, groff and mandoc read the man page without a
# warning; it has the commands, options and arguments of the program's help, and the completions their commands, options and
# kinds of faults: these, and no other. What malloc is told is the same text wherever it stands.
set -u
cd "$(dirname "$(readlink -f "$0")")/.." || exit 2
. tests/common.bash
find_program
"$program" --help >"$folder/help" || exit 1
page=share/man/man1/schema_server.1

# options: of the help on standard input the options, `-h` and `--help` a line each.
options() {
    awk '/^ +-/ { for (at = 1; $at ~ /^-/; at++) { sub(/,/, "", $at); print $at } }' | sort -u
}

# The help: the commands, each one's arguments, in brackets where they may be left out, and all options.
awk '/^Commands:/ { inside = 1; next } /^$/ { inside = 0 } inside { print $1 }' "$folder/help" | sort >"$folder/commands"
options <"$folder/help" >"$folder/top.options"
: >"$folder/arguments"
while read -r command; do
    if [ "$command" = help ]; then
        # It has no help of its own.
        echo 'help [COMMAND]' >>"$folder/arguments"
        continue
    fi
    "$program" "$command" --help >"$folder/$command.help"
    options <"$folder/$command.help" >"$folder/$command.options"
    awk -v command="$command" '
        /^Usage:/ { usage = $0 " " }
        /^ +(--|<|\[)/ {
            given = $1 ($2 ~ /^</ ? " " $2 : "")
            needed = index(usage, " " given " ")
            gsub(/[][<>]/, "", given)
            print command, needed && $1 !~ /^\[/ ? given : "[" given "]"
        }
    ' "$folder/$command.help" >>"$folder/arguments"
done <"$folder/commands"
sort -o "$folder/arguments" "$folder/arguments"
sort -u "$folder"/*.options >"$folder/options"

# The man page: the same of its synopsis and of its two lists.
awk -v folder="$folder" '
    BEGIN { printf "" > (folder "/page.arguments") }
    /^\.S[hs] / { part = $2 }
    part == "SYNOPSIS" && $1 == ".Cm" { command = $2 }
    part == "SYNOPSIS" && /^\.(Op|Fl|Ar) / {
        given = $0
        sub(/^\.(Op )?/, "", given)
        gsub(/Fl \\-/, "--", given)
        gsub(/Ar /, "", given)
        print command, $1 == ".Op" ? "[" given "]" : given > (folder "/page.arguments")
    }
    part == "Commands" && /^\.It Cm / { print $3 > (folder "/page.commands") }
    part == "Options" && /^\.It Fl / {
        for (at = 2; at < NF; at++) {
            if ($at == "Fl") { name = $(at + 1); sub(/^\\/, "", name); print "-" name > (folder "/page.options") }
        }
    }
' "$page"
for list in arguments commands options; do
    sort -o "$folder/page.$list" "$folder/page.$list"
    same "$list of the help and of $page" "$folder/$list" "$folder/page.$list"
done

# What is printed of a device: README.md's lines.
grep -o 'device: [a-z]*' README.md | sort -u >"$folder/devices"
sed -n 's/^\.It Li \(device: \)/\1/p' "$page" | sort >"$folder/page.devices"
same "devices of README.md and of $page" "$folder/devices" "$folder/page.devices"

# The man page as the installed tools read it.
read_by=
if command -v man >/dev/null && command -v groff >/dev/null; then
    read_by+=' man'
    man --warnings -E UTF-8 -l "$page" 2>"$folder/warnings" >"$folder/shown" || fail "man: status $?"
    [ ! -s "$folder/warnings" ] || fail "man: $(<"$folder/warnings")"
    grep -q 'schema_server compile --root DIR' "$folder/shown" || fail 'man does not show it'
fi
if command -v groff >/dev/null; then
    read_by+=' groff'
    groff -mandoc -ww -z "$page" 2>"$folder/warnings"
    [ ! -s "$folder/warnings" ] || fail "groff: $(<"$folder/warnings")"
fi
if command -v mandoc >/dev/null; then
    read_by+=' mandoc'
    mandoc -T lint -W warning "$page" >"$folder/warnings" 2>/dev/null || fail "mandoc: $(<"$folder/warnings")"
fi
[ -n "$read_by" ] || untried 'man with groff, and no mandoc' 'no tool read the page'

# What malloc is told, as ./schema_server tells it. The man page has a line for each.
tunables=$(sed -n 's/^tunables=//p' schema_server)
for place in docs/GUIDE.md examples/service/schema-server.service share/wrapper; do
    grep -qF -e "${tunables:?}" "$place" || fail "$place has other tunables than ./schema_server"
done
sed -n 's/^\.Dl \(glibc\.\)/\1/p' "$page" | paste -sd : >"$folder/page.tunables"
[ "$(<"$folder/page.tunables")" = "$tunables" ] || fail "$page has other tunables than ./schema_server"

# The lines of docs/GUIDE.md that install it, with another folder for /usr/local.
grep -o 'sudo install -D [^`]*' docs/GUIDE.md | sed "s|^sudo ||; s| /usr/local/| $folder/local/|" >"$folder/install"
bash "$folder/install" || fail 'a line of docs/GUIDE.md that installs it fails'
diff -r -x release -x wrapper share "$folder/local/share" || fail 'docs/GUIDE.md installs something else'
[ -z "$(find "$folder/local" -type f ! -perm 644)" ] || fail 'what docs/GUIDE.md installs is not for all to read'

# completed WORDS..: what the completion offers for the last of these words of a line, sorted, in the file `completed`.
. share/bash-completion/completions/schema_server || exit 2
mkdir "$folder/path" && ln -s "$program" "$folder/path/schema_server" && PATH=$folder/path:$PATH || exit 2
completed() {
    COMP_WORDS=(schema_server "$@")
    COMP_CWORD=$#
    COMPREPLY=(left from before)
    _schema_server
    : >"$folder/completed"
    [ "${#COMPREPLY[@]}" = 0 ] || printf '%s\n' "${COMPREPLY[@]}" | sort >"$folder/completed"
}

# offers WANTED WORDS..: it offers exactly these lines.
offers() {
    local wanted=$1
    shift
    completed "$@"
    [ "$(<"$folder/completed")" = "$wanted" ] || fail "${*@Q} is completed by $(paste -sd ' ' "$folder/completed")"
}

complete -p schema_server | grep -qF -e '-F _schema_server schema_server' || fail 'the completion is not that of schema_server'
completed ''
same 'commands of the help and of the completion' "$folder/commands" "$folder/completed"
completed -
same 'options of the help and of the completion' "$folder/top.options" "$folder/completed"
offers describe d
while read -r command; do
    [ "$command" != help ] || continue
    completed "$command" -
    same "options of $command in its help and in the completion" "$folder/$command.options" "$folder/completed"
done <"$folder/commands"
offers '' help -
offers compile help co
for command in compile check serve answer; do
    grep -v -e '^-h$' -e '^--help$' "$folder/$command.options" >"$folder/wanted"
    completed "$command" --root examples ''
    same "$command without a dash" "$folder/wanted" "$folder/completed"
done
"$program" explain | awk '!/^device: |^out of / { print $1 }' | sort >"$folder/kinds"
completed explain ''
same 'kinds of explain and of the completion' "$folder/kinds" "$folder/completed"
offers $'TypeNotFound\nTypeNotMessage' explain TypeN
offers '' explain TypeNotFound ''
offers '' describe ''
for option in --listen --connections --workers --cut; do
    offers '' serve "$option" ''
done
offers $'gcc\ngithub\njson\ntext' check --format ''
offers github check --format = gi

# The completions for zsh and fish have the same commands and options, and are read by these shells where they are installed.
cat "$folder/commands" "$folder/options" | sed 's/^--*//' | sort -u >"$folder/words"
grep -oE "(^ *'[a-z]+:|\*?--[a-z_-]+|\{-[hV],)" share/zsh/site-functions/_schema_server | tr -d "' :*{," | sed 's/^--*//' | sort -u >"$folder/zsh.words"
same 'words of the help and of the completion for zsh' "$folder/words" "$folder/zsh.words"
{
    sed -n 's/^set -l commands //p' share/fish/vendor_completions.d/schema_server.fish | tr ' ' '\n'
    grep '^complete ' share/fish/vendor_completions.d/schema_server.fish | grep -oE -e '-[ls] [a-zA-Z_-]+' | cut -d ' ' -f 2
} | sort -u >"$folder/fish.words"
same 'words of the help and of the completion for fish' "$folder/words" "$folder/fish.words"
! command -v zsh >/dev/null || zsh -n share/zsh/site-functions/_schema_server || fail 'zsh does not read its completion'
! command -v fish >/dev/null || fish -n share/fish/vendor_completions.d/schema_server.fish || fail 'fish does not read its completion'

# Folders and files; a word comes with its quotes, and is split at `=`.
mkdir -p "$folder/place/orders" "$folder/place/old orders/a b" && touch "$folder/place/orders.pb" "$folder/place/old set.pb" || exit 2
cd "$folder/place" || exit 2
for command in compile check serve answer; do
    offers $'old orders\norders' "$command" --include ''
    offers $'old orders\norders' "$command" --root ''
done
offers orders compile --root or
offers $'old orders\norders' compile --root =
offers 'old orders' compile --root = ol
for word in 'old\ o' '"old o' "'old o"; do
    offers 'old orders' compile --root "$word"
done
offers 'old orders/a b' compile --root 'old\ orders/'
offers '' compile --root none
offers $'old orders\nold set.pb\norders\norders.pb' compile --root orders --output ''
offers 'old set.pb' compile --output 'old\ s'
offers orders.pb compile --root . --output = orders.
offers orders.pb describe a.proto '<' orders.
touch orders/a.proto orders/a.txt
offers orders/a.proto check --root . orders/a
offers a.proto compile --root = orders a
[ "$failures" = 0 ]
