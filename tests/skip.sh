#!/usr/bin/env bash
# Sources whose custom options are skipped (--skip-custom-options), through the built program: each set is that of the same sources
# with blanks in place of what is left out, and, where protoc 3.21.12 and Python's protobuf are installed, protoc's once that is
# taken out of it.
set -u
cd "$(dirname "$(readlink -f "$0")")/.." || exit 2
. tests/serving.bash
top=$PWD
rows=0
cd "$folder" || exit 2
with_protoc=
if has_protoc 'nothing was compared with its sets'; then
    find_python google.protobuf.descriptor_pb2 && with_protoc=1 || untried 'Python with protobuf' "nothing was compared with protoc's sets"
fi

# The custom options that the rows set. They stand in a folder of --include; descriptor.proto, which they extend, is proto2.
mkdir -p options/google/protobuf
cat >options/options.proto <<'PROTO'
syntax = "proto3";
package custom;
import "google/protobuf/descriptor.proto";
message Rule {
  string text = 1;
  repeated int32 numbers = 2;
  Rule inner = 3;
  double weight = 4;
  extensions_of of = 5;
}
message extensions_of {}
extend google.protobuf.FileOptions { string file_note = 50001; Rule file_rule = 50002; }
extend google.protobuf.MessageOptions { string note = 50001; Rule rule = 50002; double weight = 50003; sint32 depth = 50004; }
extend google.protobuf.FieldOptions { string field_note = 50001; Rule field_rule = 50002; bool secret = 50003; }
extend google.protobuf.OneofOptions { string oneof_note = 50001; }
extend google.protobuf.EnumOptions { string enum_note = 50001; }
extend google.protobuf.EnumValueOptions { string value_note = 50001; }
extend google.protobuf.ServiceOptions { string service_note = 50001; }
extend google.protobuf.MethodOptions { string method_note = 50001; Rule http = 50002; }
PROTO

# with STATEMENTS: a.proto with these.
with() {
    rm -rf root && mkdir root
    printf 'syntax = "proto3";\n%s\n' "$1" >root/a.proto
}

# compiles TITLE: a.proto, which compiles so, is compared with protoc's.
compare() {
    if [ -n "$with_protoc" ]; then
        protoc -Iroot -Ioptions -I/usr/include --include_imports --descriptor_set_out=protoc.pb a.proto 2>err || fail "$1: protoc refuses it: $(head -n 1 err)"
        "$python" "$top/tests/without_custom_options.py" got.pb protoc.pb >differ 2>&1 || fail "$1: $(tail -n 1 differ)"
    fi
}

# skips TITLE WITH WITHOUT: the first statements are compiled as the second are without the option.
skips() {
    local plan
    rows=$((rows + 1))
    with "$3"
    "$program" compile --root root --include options a.proto >wanted.pb 2>err || fail "$1: without what is skipped: $(<err)"
    with "$2"
    for plan in '' '--workers 1 --cut 1' '--workers 64 --cut 4096'; do
        # shellcheck disable=SC2086
        "$program" compile $plan --root root --include options --skip-custom-options a.proto >got.pb 2>err || fail "$1: $(<err)"
        cmp -s wanted.pb got.pb || fail "$1: another set"
    done
}

# skips_as_protoc TITLE WITH WITHOUT: the same, and protoc compiles the first statements to this, once what is left out is taken out.
skips_as_protoc() {
    skips "$@"
    compare "$1"
}

# uses TITLE WITH WITHOUT: the same, behind an import of the custom options, whose own sources are a.proto's as well.
uses() {
    local import='import "options.proto";'
    rows=$((rows + 1))
    with "$import $2"
    "$program" compile --root root --include options --skip-custom-options a.proto >got.pb 2>err || fail "$1: $(<err)"
    compare "$1"
    with "$import $3"
    "$program" compile --root root --include options --skip-custom-options a.proto >wanted.pb 2>err || fail "$1: without what is skipped: $(<err)"
    cmp -s wanted.pb got.pb || fail "$1: another set"
}

# ends TITLE STATEMENTS LINE: the statements are refused so.
ends() {
    local got
    rows=$((rows + 1))
    with "$2"
    "$program" compile --root root --include options --skip-custom-options a.proto >got.pb 2>err
    got=$?
    [ "$got" = 1 ] && [ "$(<err)" = "$3" ] || fail "$1: status $got, $(<err)"
}

# ---- statements

uses 'a file' 'option (custom.file_note) = "x"; message A {}' 'message A {}'
uses 'a message' 'message A { option (custom.note) = "x"; int32 x = 1; }' 'message A { int32 x = 1; }'
uses 'a oneof' 'message A { oneof o { option (custom.oneof_note) = "x"; int32 x = 1; } }' 'message A { oneof o { int32 x = 1; } }'
uses 'an enum' 'enum E { option (custom.enum_note) = "x"; Z = 0; }' 'enum E { Z = 0; }'
uses 'a service and a method' \
    'message A {} service S { option (custom.service_note) = "x"; rpc R(A) returns (A) { option (custom.method_note) = "x"; } }' \
    'message A {} service S { rpc R(A) returns (A) {} }'
uses 'a leading dot, a part behind it, and a custom part' \
    'message A { option (.custom.rule).text = "x"; option (custom.rule).inner.text = "y"; }' 'message A {}'
uses 'numbers' 'message A { option (custom.weight) = -1.5e-3; } message B { option (custom.depth) = -0x1F; } message C { option (custom.weight) = .5; }' \
    'message A {} message B {} message C {}'
uses 'strings that stand side by side' 'message A { option (custom.note) = "x" '"'y'"' "\"}"; }' 'message A {}'
uses 'an aggregate' \
    'message A { option (custom.rule) = { text: "}" /* } */ numbers: [1, 2] inner { text: "{", numbers: 3; } weight: 1.5 }; }' 'message A {}'
uses 'an aggregate over lines, with comments' $'message A {\n  option (custom.rule) = {\n    text: "x" // "{"\n    inner: {}\n  };\n  int32 x = 1;\n}' \
    'message A { int32 x = 1; }'
uses 'options that no table has' \
    'option java_generate_equals_and_hash = true; option cc_generic_services = false; option py_generic_services = false; option java_generic_services = false; option php_generic_services = false; option java_string_check_utf8 = true; option java_package = "p";' \
    'option java_package = "p";'

# ---- settings between brackets

uses 'all settings' 'message A { string x = 1 [(custom.field_note) = "]"]; }' 'message A { string x = 1; }'
uses 'the first' 'message A { string x = 1 [(custom.secret) = true, deprecated = true]; }' 'message A { string x = 1 [deprecated = true]; }'
uses 'the last' 'message A { string x = 1 [deprecated = true, (custom.secret) = true]; }' 'message A { string x = 1 [deprecated = true]; }'
uses 'one in the middle, and options that no table has' \
    'message A { repeated int32 x = 1 [deprecated = true, (custom.field_rule) = { numbers: [1] }, lazy = false, packed = false, weak = false]; }' \
    'message A { repeated int32 x = 1 [deprecated = true, packed = false]; }'
uses 'several before the first that stays' \
    'message A { string x = 1 [(custom.secret) = true, ctype = CORD, json_name = "y", (custom.field_note) = ""]; }' \
    'message A { string x = 1 [json_name = "y"]; }'
uses 'an enum value' 'enum E { Z = 0 [(custom.value_note) = "x"]; Y = 1 [deprecated = true, (custom.value_note) = "y"]; }' \
    'enum E { Z = 0; Y = 1 [deprecated = true]; }'
uses 'a map, and a member of a oneof' \
    'message A { map<string, int32> m = 1 [(custom.secret) = true]; oneof o { int32 y = 2 [(custom.secret) = false]; } }' \
    'message A { map<string, int32> m = 1; oneof o { int32 y = 2; } }'

# ---- words that are names

skips 'messages, fields, methods and values that are called as statements are' \
    'message option {} message extend {} message M { repeated option x = 1; .extend y = 2; optional extend option = 3; int32 weak = 4; } message N { enum E { extend = 0; import = 1; weak = 2; } } service option_s { rpc option(M) returns (option); rpc extend(M) returns (M) {} }' \
    'message option {} message extend {} message M { repeated option x = 1; .extend y = 2; optional extend option = 3; int32 weak = 4; } message N { enum E { extend = 0; import = 1; weak = 2; } } service option_s { rpc option(M) returns (option); rpc extend(M) returns (M) {} }'
skips 'semicolons alone, comments, and a byte order mark' $'; // option (x) = 1;\n/* extend A { } */ message A { ; }' $'; // option (x) = 1;\n/* extend A { } */ message A { ; }'

# ---- extensions and imports

skips 'an extension at the top, in a message, of what is not there, and with a group' \
    'extend A { int32 x = 1; } message A { extend .b.C { optional group D = 1 { repeated int32 y = 2; } } int32 z = 1; }' 'message A { int32 z = 1; }'
mkdir -p weakly && printf 'syntax = "proto3"; message B {}' >options/b.proto
skips 'a weak import' 'import weak "b.proto"; message A { B b = 1; }' 'import "b.proto"; message A { B b = 1; }'
skips 'imports of what is no source, once or twice, public or weak' \
    'import "none.proto"; import "none.proto"; import public "no" "where.proto"; import weak "none.proto"; message A {}' 'message A {}'
printf 'syntax = "proto2"; message Old { required int32 x = 1; }' >options/old.proto
printf 'message Older { optional int32 x = 1; }' >options/older.proto
skips 'imports of proto2 files, with a syntax and without' 'import "old.proto"; import "older.proto"; message A {}' 'message A {}'
ends 'a type of a dropped file' 'import "old.proto"; message A { Old o = 1; }' 'a.proto:2:33: TypeNotFound'

# ---- what is malformed stays, and is refused where it stands

ends 'no value' 'option (x) = ;' 'a.proto:2:8: CustomOption'
ends 'no equals sign' 'option (x) 1;' 'a.proto:2:8: CustomOption'
ends 'no semicolon' 'option (x) = 1' 'a.proto:2:8: CustomOption'
ends 'a name without its end' 'option (x = 1;' 'a.proto:2:8: CustomOption'
ends 'braces that do not close' 'option (x) = { y: { };' 'a.proto:2:8: CustomOption'
ends 'a sign before braces' 'option (x) = - { };' 'a.proto:2:8: CustomOption'
ends 'an extension without braces' 'extend A;' 'a.proto:2:1: LeftOut'
ends 'a comma behind the last setting' 'message A { int32 x = 1 [(x) = 1,]; }' 'a.proto:2:26: CustomOption'
ends 'no setting' 'message A { int32 x = 1 []; }' 'a.proto:2:26: Unexpected'
ends 'brackets that do not close' 'message A { int32 x = 1 [(x) = 1; }' 'a.proto:2:26: CustomOption'
ends 'a float in what is malformed' 'option (x) = 1.5' 'a.proto:2:14: BadNumber'
ends 'a float elsewhere' 'message A { int32 x = 1.5; }' 'a.proto:2:23: BadNumber'
ends 'a string that does not close' 'option (x) = "y;' 'a.proto:2:14: UnclosedString'
ends 'a comment that does not close' 'option (x) = 1; /* y' 'a.proto:2:17: UnclosedComment'
ends 'a byte of no token' $'option (x) = 1; \x7f' 'a.proto:2:17: BadByte'
ends 'an option that nothing has' 'option x = 1;' 'a.proto:2:8: UnknownOption'
ends 'what stands behind what is skipped, on its line' 'option (x) = { y: "z" }; message A { B b = 1; }' 'a.proto:2:38: TypeNotFound'
skips 'a wrong escape and a wrong number in what is skipped' 'option (x) = "\q" "\xff"; option (y) = { z: 1x }; message A {}' 'message A {}'

# ---- check shows a line as it is written, of a source below the root and of one that is imported

# shows TITLE FILE LINE COLUMN KIND: the first line of the report on a.proto with its imports and, behind what is known of the fault, the
# line as it stands in the file.
shows() {
    local wanted
    rows=$((rows + 1))
    "$program" check --root root --include options --skip-custom-options a.proto >got.out 2>err
    got=$?
    wanted="$2:$3:$4: $5"$'\n'"  $3 | $(sed -n "$3p" "$2")"
    [ "$got" = 1 ] && [ "$(sed -n '1p;3p' got.out)" = "$wanted" ] || fail "$1: status $got, $(head -n 3 got.out)"
}
with 'import "none.proto"; option (x) = { y: "z" }; message A { B b = 1 [(x) = 1]; }'
shows 'a fault behind what is skipped' root/a.proto 2 59 TypeNotFound
printf 'syntax = "proto3";\noption (x) = 1; message C { D d = 1; } extend E { }' >options/c.proto
with 'import "c.proto";'
shows 'a fault in what is imported' options/c.proto 2 29 TypeNotFound

# ---- no syntax: asked for it is refused; imported it is no source, as above

printf 'message A {}' >root/a.proto
"$program" compile --root root --skip-custom-options >got.pb 2>err
got=$?
[ "$got" = 1 ] && [ "$(<err)" = 'a.proto:1:1: Unexpected' ] || fail "no syntax: status $got, $(<err)"

# ---- a text without anything to skip is compiled to the same bytes

for root in "$top/examples" "$top/tests/descriptors"; do
    "$program" compile --root "$root" >wanted.pb 2>err || continue
    rows=$((rows + 1))
    "$program" compile --root "$root" --skip-custom-options >got.pb 2>err || fail "$root: $(<err)"
    cmp -s wanted.pb got.pb || fail "$root: another set with the option"
done

# ---- the other commands

with 'option (x) = 1; message A { int32 x = 1 [(y) = { z: 2 }]; }'
mkdir -p plain && printf 'syntax = "proto3"; message A { int32 x = 1; }' >plain/a.proto
printf '\0\0\0\0\x0b\x1a\x07a.proto\x3a\0\0\0\0\0\x03\x22\x01A' >body
"$program" answer --root plain <body >wanted.reply || fail "answer: status $?"
"$program" answer --root root --skip-custom-options <body >got.reply 2>err || fail "answer: $(<err)"
cmp -s wanted.reply got.reply || fail 'answer: another reply'
"$program" check --root root --skip-custom-options >got.out 2>err || fail "check: status $?"
[ "$(<got.out)" = '1 file, no fault' ] || fail "check: $(<got.out)"
"$program" check --root root >got.out 2>err
[ "$(head -n 1 got.out)" = 'root/a.proto:2:8: CustomOption' ] || fail "check without the option: $(head -n 1 got.out)"
start --root root --skip-custom-options
curl -sS --data-binary @body -H 'content-type: application/grpc-web+proto' \
    "$url/grpc.reflection.v1.ServerReflection/ServerReflectionInfo" >got.reply || fail 'serve: no reply'
cmp -s wanted.reply got.reply || fail 'serve: another reply'
stop
"$program" describe a.proto --skip-custom-options <root/a.proto >got.out 2>&1
[ "$?" = 2 ] || fail 'describe takes the option'

echo "$0: $rows rows"
[ "$failures" = 0 ]
