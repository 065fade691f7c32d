#!/usr/bin/env bash
# The command `check` of the built program over folders on disk: the report, byte for byte, and the status.
set -u
cd "$(dirname "$(readlink -f "$0")")/.." || exit 2
. tests/common.bash
find_program
rows=0

# checked STATUS ROOT: the report over a folder is what is read, by each plan, and standard error is empty.
checked() {
    local plan wanted
    IFS= read -r -d '' wanted
    for plan in '' '--workers 1 --cut 1' '--workers 2 --cut 1' '--workers 64 --cut 4096'; do
        rows=$((rows + 1))
        # shellcheck disable=SC2086
        "$program" check --root "$2" $plan >report 2>faults
        local got=$? got_report
        IFS= read -r -d '' got_report <report
        if [ "$got" != "$1" ] || [ "$got_report" != "$wanted" ] || [ -s faults ]; then
            fail "$2, $plan: status $got
$got_report$(<faults)"
        fi
    done
}

# said KIND: the meaning and the cure of a kind, as a report has them.
said() {
    echo "  $("$program" explain "$1" | sed -n 3p)"
    echo "  $("$program" explain "$1" | tail -n 1)"
}

# unseen: the line that follows where files have faults by themselves.
unseen='imports, names and types are looked at when these are mended'

# one PLACE KIND ROOT: the report over a folder whose one file has this fault, with what it is about, the line and the mark that are
# read.
one() {
    checked 1 "$3" < <(
        echo "${3%/}/a.proto:$1: $2"
        cat
        said "$2"
        echo '1 fault in 1 file'
        [ "$2" != UnexpectedEnd ] || echo "$unseen"
    )
}

# times N LETTER: so many of a letter.
times() {
    printf "%$1s" '' | tr ' ' "$2"
}

top=$PWD
cd "$folder" || exit 2
mkdir -p empty sound/below faulty/below later mixed

checked 0 empty <<'REPORT'
no file that ends in .proto below empty
REPORT

printf 'syntax = "proto3";\nmessage A { int32 x = 1; }\n' >sound/a.proto
checked 0 sound <<'REPORT'
1 file, no fault
REPORT

printf 'syntax = "proto3";\nimport "a.proto";\nmessage B { A a = 1; }\n' >sound/below/b.proto
checked 0 "$folder/sound" <<'REPORT'
2 files, no fault
REPORT

# All faults of files by themselves, in the order of the names and of the places; none of a later pass. What a kind means is said
# once.
printf 'syntax = "proto3";\nmessage A { int32 x = 08; }\nmessage A { int32 y = 09; }\n' >faulty/a.proto
printf 'syntax = "proto3";\nmessage B { Missing x = 1; }\n' >faulty/b.proto
printf 'syntax = "proto3";\r\nmessage C {\r\n\tint32 x = 19000;\r\n\tint32 y = 19000;\r\n}\r\n' >faulty/below/c.proto
checked 1 faulty <<REPORT
faulty/a.proto:2:23: BadNumber
  \`08\` is no integer
  2 | message A { int32 x = 08; }
    |                       ^
$(said BadNumber)
faulty/below/c.proto:3:12: FieldNumberRange
  3 | 	int32 x = 19000;
    | 	          ^^^^^
$(said FieldNumberRange)
faulty/below/c.proto:4:12: FieldNumberRange
  4 | 	int32 y = 19000;
    | 	          ^^^^^
faulty/below/c.proto:4:12: FieldNumberTwice
  an earlier field has this number: faulty/below/c.proto:3:12
  4 | 	int32 y = 19000;
    | 	          ^^^^^
$(said FieldNumberTwice)
4 faults in 3 files
$unseen
REPORT

# Where no file has a fault of its own, all of the first later pass that has one: imports, then names, then types.
printf 'syntax = "proto3";\nmessage A {\n  Missing x = 1;\n  Missing y = 2;\n}\n' >later/a.proto
checked 1 later/ <<REPORT
later/a.proto:3:3: TypeNotFound
  nothing is called \`Missing\`
  3 |   Missing x = 1;
    |   ^^^^^^^
$(said TypeNotFound)
later/a.proto:4:3: TypeNotFound
  nothing is called \`Missing\`
  4 |   Missing y = 2;
    |   ^^^^^^^
2 faults in 1 file
REPORT
mkdir -p imports names
printf 'syntax = "proto3";\nimport "b.proto";\nimport "c.proto";\nmessage A { Missing x = 1; }\n' >imports/a.proto
printf 'syntax = "proto3";\nimport "a.proto";\nmessage A {}\n' >imports/b.proto
printf 'syntax = "proto3";\nimport "zzzzzzz.proto";\n' >imports/d.proto
checked 1 imports <<REPORT
imports/a.proto:2:8: ImportCycle
  a.proto -> b.proto -> a.proto
  2 | import "b.proto";
    |        ^^^^^^^^^
$(said ImportCycle)
imports/a.proto:3:8: ImportMissing
  no file is called \`c.proto\`; a similar name is \`a.proto\`
  3 | import "c.proto";
    |        ^^^^^^^^^
$(said ImportMissing)
imports/b.proto:2:8: ImportCycle
  b.proto -> a.proto -> b.proto
  2 | import "a.proto";
    |        ^^^^^^^^^
imports/d.proto:2:8: ImportMissing
  \`zzzzzzz.proto\` is no file below the root or an --include
  2 | import "zzzzzzz.proto";
    |        ^^^^^^^^^^^^^^^
4 faults in 3 files
names and types are looked at when these are mended
REPORT
printf 'syntax = "proto3";\nmessage A { Missing x = 1; }\nmessage B {}\n' >names/a.proto
printf 'syntax = "proto3";\nenum B { A = 0; }\n' >names/b.proto
checked 1 names <<REPORT
names/b.proto:2:6: NameTwice
  \`B\` is the name of a message: names/a.proto:3:9
  2 | enum B { A = 0; }
    |      ^
$(said NameTwice)
names/b.proto:2:10: NameTwice
  \`A\` is the name of a message: names/a.proto:2:9
  2 | enum B { A = 0; }
    |          ^
2 faults in 2 files
types are looked at when these are mended
REPORT

# The end of a file, and bytes that are no UTF-8.
printf 'syntax = "proto3";\nmessage A {' >mixed/a.proto
printf 'syntax = "proto3";\n// caf\351\n' >mixed/b.proto
checked 1 mixed <<REPORT
mixed/a.proto:2:12: UnexpectedEnd
  the end of the file cannot stand here; expected a name, \`;\`, \`}\` or \`.\`
  2 | message A {
    |            ^
$(said UnexpectedEnd)
mixed/b.proto:2:7: NotUtf8
  the byte 0xe9 belongs to no character of UTF-8
  2 | // caf$(printf '\357\277\275')
    |       ^
$(said NotUtf8)
2 faults in 2 files
$unseen
REPORT

# The end of a file after the end of a line; a character of two bytes before the token; the tenth line.
mkdir -p end wide tenth long cut whole
printf 'syntax = "proto3";\nmessage A {\n' >end/a.proto
one 3:1 UnexpectedEnd end <<SHOWN
  the end of the file cannot stand here; expected a name, \`;\`, \`}\` or \`.\`
  3 | $()
    | ^
SHOWN
printf 'syntax = "proto3"; /* \303\251 */ message A { X x = 1; }\n' >wide/a.proto
one 1:41 TypeNotFound wide <<SHOWN
  nothing is called \`X\`
  1 | syntax = "proto3"; /* $(printf '\303\251') */ message A { X x = 1; }
    |                                        ^
SHOWN
printf 'syntax = "proto3";\n\n\n\n\n\n\n\n\nmessage A { X x = 1; }\n' >tenth/a.proto
one 10:13 TypeNotFound tenth <<SHOWN
  nothing is called \`X\`
  10 | message A { X x = 1; }
     |             ^
SHOWN

# A line over 200 characters is cut around the place, and one of 200 is not; a token is marked as far as it is shown.
printf 'syntax = "proto3";\n/*%s*/ message A { Missing x = 1; } /*%s*/\n' "$(times 120 a)" "$(times 100 b)" >long/a.proto
one 2:138 TypeNotFound long <<SHOWN
  nothing is called \`Missing\`
  2 | ...$(times 85 a)*/ message A { Missing x = 1; } /*$(times 81 b)...
    | $(times 103 ' ')^^^^^^^
SHOWN
printf 'syntax = "proto3";\nmessage A { Missing x = 1; } /*%s*/\n' "$(times 167 b)" >whole/a.proto
one 2:13 TypeNotFound whole <<SHOWN
  nothing is called \`Missing\`
  2 | message A { Missing x = 1; } /*$(times 167 b)*/
    | $(times 12 ' ')^^^^^^^
SHOWN
printf 'syntax = "proto3";\nmessage A { %s x = 1; }\n' "$(times 230 T)" >cut/a.proto
one 2:13 TypeNotFound cut <<SHOWN
  nothing is called \`$(times 230 T)\`
  2 | message A { $(times 100 T)...
    | $(times 12 ' ')$(times 103 ^)
SHOWN

# What is said of each kind of fault, in one line each: tests/words.txt.
entry() {
    local wanted=$1 status
    rows=$((rows + 1))
    "$program" check --format gcc --root root >report 2>faults
    status=$?
    sed -E 's|(^\|: )root/|\1|g' report >got
    [ "$status" = 1 ] && [ ! -s faults ] && [ "$(<got)" = "$wanted" ] || fail "status $status, $(<got)$(<faults), and not
$wanted"
    [ "$("$program" compile --root root 2>&1 >/dev/null)" = "$(sed -nE '1s/^([^ ]*): error: .* \[(.*)\]$/\1: \2/p' got)" ] ||
        fail "compile tells another first fault than check: $(head -n 1 got)"
}
wanted=
while IFS= read -r line || [ -n "$wanted" ]; do
    case $line in
    '#'*) ;;
    '> '*) wanted+=${wanted:+$'\n'}${line#> } ;;
    '')
        [ -z "$wanted" ] || entry "$wanted"
        wanted=
        rm -rf root
        ;;
    *)
        mkdir -p "root/$(dirname "${line%% *}")"
        printf '%b' "${line#* }" >"root/${line%% *}"
        ;;
    esac
done <"$top/tests/words.txt"

# The other forms, of a file in a folder whose names have to be escaped.
mkdir -p 'odd, 100%' && printf 'syntax = "proto3"; /* \303\251 */ enum E { A = 0; B = 0; }' >'odd, 100%/a"b.proto'
rows=$((rows + 3))
"$program" check --format github --root 'odd, 100%' >got
[ "$?" = 1 ] && [ "$(<got)" = '::error file=odd%2C 100%25/a"b.proto,line=1,col=49,title=EnumNumberTwice::an earlier value has this number: odd, 100%25/a"b.proto:1:42' ] ||
    fail "github: $(<got)"
"$program" check --format json --root 'odd, 100%' >got
[ "$?" = 1 ] && [ "$(<got)" = '{"file":"a\"b.proto","path":"odd, 100%/a\"b.proto","line":1,"column":49,"place":48,"pass":1,"kind":"EnumNumberTwice","number":39,"message":"an earlier value has this number: odd, 100%/a\"b.proto:1:42","character":48,"others":[{"file":"a\"b.proto","line":1,"column":42,"place":41}]}' ] ||
    fail "json: $(<got)"
if has python3 'no JSON was read'; then
    python3 -c 'import json, sys; [json.loads(line) for line in sys.stdin]' <got || fail 'json: no JSON'
fi
for form in gcc github json; do
    rows=$((rows + 1))
    "$program" check --format "$form" --root sound >got
    [ "$?" = 0 ] && [ ! -s got ] || fail "$form without a fault: $(<got)"
done
"$program" check --format xml --root sound >got 2>faults
[ "$?" = 2 ] && [ ! -s got ] || fail "a form that is none: $(<faults)"
# The patterns of the examples for editors and workflows.
if has python3 'the examples were not read'; then
    "$program" check --format gcc --root faulty >got
    python3 - "$top/examples/check" got <<'PYTHON' || fail 'a pattern of examples/check'
import json, re, sys
folder, report = sys.argv[1:]
with open(f"{folder}/tasks.json") as file:
    tasks = json.loads("".join(line for line in file if not line.lstrip().startswith("//")))
pattern = tasks["tasks"][0]["problemMatcher"]["pattern"]
with open(report) as file:
    found = [re.match(pattern["regexp"], line.rstrip("\n")) for line in file]
assert [(it[pattern["line"]], it[pattern["column"]], it[pattern["code"]]) for it in found] == [
    ("2", "23", "BadNumber"), ("3", "12", "FieldNumberRange"), ("4", "12", "FieldNumberRange"), ("4", "12", "FieldNumberTwice")], found
try:
    import yaml
except ImportError:
    sys.exit()
with open(f"{folder}/pre-commit-config.yaml") as file:
    assert yaml.safe_load(file)["repos"][0]["hooks"][0]["entry"] == "schema_server check --format gcc --root proto"
with open(f"{folder}/workflow.yaml") as file:
    steps = yaml.safe_load(file)["jobs"]["check"]["steps"]
assert steps[-1]["run"] == "schema_server check --format github --root proto"
PYTHON
fi

# A folder that cannot be read: a second line names the entry and the reason.
mkdir -p circle pipe && ln -s . circle/me && mkfifo pipe/a.proto
while read -r root line; do
    rows=$((rows + 1))
    timeout 10 "$program" check --root "$root" >report 2>faults
    got=$?
    if [ "$got" != 3 ] || [ -s report ] || [ "$(<faults)" != "device: folder"$'\n'"$line" ]; then
        fail "$root: status $got, $(<faults)"
    fi
done <<'LINES'
none none: it is not there
sound/a.proto sound/a.proto: it is no folder
circle circle/me: a link that leads to a folder in which it lies
pipe pipe/a.proto: it is a device or a pipe
LINES
"$program" check --root sound none.proto >report 2>faults
if [ "$?" != 3 ] || [ "$(<faults)" != $'device: folder\nsound/none.proto: it is not there' ]; then
    fail "a named file that is not there: $(<faults)"
fi

# A file's name with control characters stays in its line, here and in what compile tells.
mkdir named && printf 'syntax = "proto3"; message A { X x = 1; }' >$'named/a\nb\t.proto'
if [ "$("$program" compile --root named 2>&1)" != 'a\u{a}b\u{9}.proto:1:32: TypeNotFound' ] ||
    [ "$("$program" check --root named | head -n 1)" != 'named/a\u{a}b\u{9}.proto:1:32: TypeNotFound' ]; then
    fail "a name with control characters: $("$program" compile --root named 2>&1)"
fi

# So do the path of an entry that cannot be read, and the root.
mkdir odd && mkfifo $'odd/a\nb.proto'
"$program" check --root odd >report 2>faults
if [ "$?" != 3 ] || [ "$(<faults)" != $'device: folder\nodd/a\\u{a}b.proto: it is a device or a pipe' ]; then
    fail "an entry with control characters: $(<faults)"
fi
mkdir $'top\nmost' && checked 0 $'top\nmost' <<'REPORT'
no file that ends in .proto below top\u{a}most
REPORT

# The first of these faults is the one that compile tells.
"$program" compile --root mixed >/dev/null 2>faults
if [ "mixed/$(<faults)" != "$("$program" check --root mixed | head -n 1)" ]; then
    fail "mixed: compile tells $(<faults)"
fi
echo "$0: $rows rows"
[ "$rows" -gt 0 ] && [ "$failures" = 0 ]
