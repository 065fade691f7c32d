#!/usr/bin/env bash
# Sources from other folders (--include) and sources that are named, through the built program. What is compiled is compared with
# the set of a folder that holds just the files that are wanted, and with protoc's where protoc 3.21.12 is installed.
set -u
cd "$(dirname "$(readlink -f "$0")")/.." || exit 2
. tests/users.bash
rows=0
cd "$folder" || exit 2

# source_at PATH STATEMENTS: a source with these statements.
source_at() {
    mkdir -p "$(dirname "$1")"
    printf 'syntax = "proto3"; %s\n' "$2" >"$1"
}

# compiles WANTED WORDS..: `compile` with these words gives the set of the sources of the folder WANTED, with every plan.
compiles() {
    local wanted=$1 plan
    shift
    "$program" compile --root "$wanted" >wanted.pb || fail "$wanted: status $?"
    for plan in '' '--workers 1 --cut 1' '--workers 2 --cut 1' '--workers 64 --cut 4096'; do
        rows=$((rows + 1))
        # shellcheck disable=SC2086
        timeout 20 "$program" compile $plan "$@" >got.pb 2>got.err || fail "$plan $*: status $?, $(<got.err)"
        cmp -s wanted.pb got.pb || fail "$plan $*: another set than that of $wanted"
    done
}

# ends STATUS LINE WORDS..: `compile` with these words ends so, with every plan, and writes nothing else.
ends() {
    local status=$1 line=$2 plan got
    shift 2
    for plan in '' '--workers 1 --cut 1' '--workers 64 --cut 4096'; do
        rows=$((rows + 1))
        # shellcheck disable=SC2086
        timeout 20 "$program" compile $plan "$@" >got.pb 2>got.err
        got=$?
        if [ "$got" != "$status" ] || [ "$(<got.err)" != "$line" ] || [ -s got.pb ]; then
            fail "$plan $*: status $got, $(<got.err)"
        fi
    done
}

# ---- imports of imports, from the first folder that has them; nothing that is not imported

source_at protos/a.proto 'import "common/b.proto"; import "own.proto"; message A { common.B b = 1; }'
source_at protos/own.proto 'message Own {}'
source_at first/common/b.proto 'package common; import "c.proto"; message B { C c = 1; }'
source_at first/own.proto 'message NotThisOne {}'
source_at first/not_imported.proto 'message'
source_at second/c.proto 'message C { int32 x = 1; }'
source_at second/common/b.proto 'message NotThisOne {}'
source_at wanted/a.proto 'import "common/b.proto"; import "own.proto"; message A { common.B b = 1; }'
cp protos/own.proto wanted/
mkdir wanted/common && cp first/common/b.proto wanted/common/ && cp second/c.proto wanted/
compiles wanted --root protos --include first --include second
compiles wanted --root protos --include=first --include=second a.proto own.proto
compiles wanted --include first --include second --root protos a.proto
compiles wanted --root protos --include first --include second a.proto a.proto
mkdir only && cp protos/own.proto only/
compiles only --root protos own.proto
compiles only --root protos --include first own.proto
ends 1 'a.proto:1:27: ImportMissing' --root protos
ends 1 'common/b.proto:1:43: ImportMissing' --root protos --include first
ends 3 'device: folder' --root protos --include none
ends 3 'device: folder' --root protos --include protos/a.proto
# The first folder that has a file counts: here it imports nothing, and has another message.
ends 1 'a.proto:1:77: TypeNotFound' --root protos --include second --include first
# Without files and folders all is as it was.
compiles wanted --root wanted
compiles wanted --root wanted --include first

# ---- a circle of imports, and a file that is looked for by two

source_at circle/x.proto 'import "y.proto";'
source_at elsewhere/y.proto 'import "x.proto"; import "z.proto";'
source_at elsewhere/z.proto 'import "y.proto";'
ends 1 'x.proto:1:27: ImportCycle' --root circle --include elsewhere
source_at both/p.proto 'import "r.proto";'
source_at both/q.proto 'import "r.proto";'
source_at shared/r.proto 'message R {}'
mkdir together && cp both/*.proto shared/r.proto together/
compiles together --root both --include shared

# ---- faults: told by the name of the source, also of one that is included; what is no file imports nothing

source_at faulty/a.proto 'import "b.proto";'
source_at faults/b.proto 'message B { int32 = 1; }'
ends 1 'b.proto:1:38: Unexpected' --root faulty --include faults
source_at unread/a.proto 'import "b.proto"; }'
ends 1 'a.proto:1:38: Unexpected' --root unread --include faults
source_at several/good.proto 'message G {}'
source_at several/bad.proto 'message'
mkdir alone && cp several/good.proto alone/
compiles alone --root several good.proto
ends 1 'bad.proto:2:1: UnexpectedEnd' --root several bad.proto good.proto

# ---- names that no file below a folder has are not looked for

source_at outside/secret.proto 'message Secret {}'
for name in ../outside/secret.proto ./secret.proto "$folder/outside/secret.proto" p//secret.proto p/../secret.proto secret.proto/ '' .. .; do
    rm -rf hostile include
    source_at hostile/a.proto "import \"$name\";"
    mkdir include include/p && cp outside/secret.proto include/ && cp outside/secret.proto include/p/
    ends 1 'a.proto:1:27: ImportMissing' --root hostile --include include
done

# ---- a named file by other paths, and a folder; what does not lie below the root

source_at named/x/a.proto 'message A {}'
source_at named/y/b.proto 'message B {}'
source_at named/y/z/c.proto 'message C {}'
mkdir -p one/x three/y two/y/z && cp named/x/a.proto one/x/ && cp named/y/b.proto three/y/
cp named/y/z/c.proto two/y/z/ && cp named/y/b.proto two/y/
for name in x/a.proto ./x/a.proto x//a.proto y/../x/./a.proto "$folder/named/x/a.proto" "$folder/named/y/../x/a.proto" x x/; do
    compiles one --root named "$name"
    compiles one --root "$folder/named" "$name"
done
compiles two --root named y
compiles two --root named y/z y/b.proto "$folder/named/y"
compiles named --root named .
compiles named --root named x y
mkdir -p by && ln -s "$folder/named" by/link
compiles one --root by/link "$folder/named/x/a.proto"
# names STATUS LINE WORDS..: `check` with these words ends so, with this second line.
names() {
    rows=$((rows + 1))
    "$program" check "${@:2}" >got.out 2>got.err
    [ "$?" = 3 ] && [ "$(<got.err)" = "device: folder"$'\n'"$1" ] || fail "${*:2}: $(<got.err)"
}
names '../a.proto: it does not lie below the root' --root named ../a.proto
names "$folder/only/own.proto: it does not lie below the root" --root named "$folder/only/own.proto"
names 'x/a.proto: so this source is named, by its path from the root' --root named named/x/a.proto
names 'named/x/b.proto: it is not there' --root named x/b.proto

# ---- folders that are left out

compiles one --root named --exclude y
compiles one --root named --exclude ./y/ --exclude none
compiles one --root named --exclude "$folder/named/y"
compiles two --root named --exclude x y
source_at three/x/a.proto 'message A {}'
compiles three --root named --exclude y/z
rm -r three/x
compiles three --root named --exclude y/z y
# What is imported from there is found. A folder that is left out is not listed, whatever is wrong with it.
source_at imports/a.proto 'import "left/b.proto"; message A { B b = 1; }'
source_at imports/left/b.proto 'message B {}'
source_at imports/left/c.proto 'message'
mkdir -p found/left && cp imports/a.proto found/ && cp imports/left/b.proto found/left/
ln -s . imports/left/circle
compiles found --root imports --exclude left
ends 3 'device: folder' --root imports

# ---- named files that are not there; folders, links and pipes in the place of a file

ends 3 'device: folder' --root protos none.proto
ends 3 'device: folder' --root protos common
rm -rf linked places
source_at linked/a.proto 'import "b.proto";'
mkdir places && ln -s "$folder/shared/r.proto" places/b.proto
mkdir merged && cp linked/a.proto merged/ && cp shared/r.proto merged/b.proto
compiles merged --root linked --include places
ln -sf nowhere places/b.proto
ends 1 'a.proto:1:27: ImportMissing' --root linked --include places
rm places/b.proto && mkdir places/b.proto
ends 1 'a.proto:1:27: ImportMissing' --root linked --include places
mkdir later && cp shared/r.proto later/b.proto
compiles merged --root linked --include places --include later
rmdir places/b.proto && mkfifo places/b.proto
ends 3 'device: folder' --root linked --include places
rm places/b.proto && cp shared/r.proto places/b.proto && chmod 0 places/b.proto
if become_ordinary 'a file that may not be read was not tried'; then
    "${as_user[@]}" "$program" compile --root linked --include places >got.pb 2>got.err
    got=$?
    [ "$got" = 3 ] && [ "$(<got.err)" = 'device: folder' ] || fail "a file that may not be read: status $got, $(<got.err)"
fi

# Tens of thousands of folders, none of which has the import.
mkdir lonely
printf 'syntax = "proto3"; import "nowhere.proto";' >lonely/a.proto
folders=()
for ((turn = 0; turn < 40000; turn++)); do
    folders+=(--include second)
done
for command in compile check; do
    "$program" "$command" --root lonely "${folders[@]}" >got.out 2>&1
    got=$?
    [ "$got" = 1 ] && grep -q 'a[.]proto:1:27: ImportMissing' got.out || fail "$command with tens of thousands of folders: status $got, $(head -c 200 got.out)"
done

# ---- the other commands

"$program" compile --root wanted >wanted.pb
printf '\0\0\0\0\x0b\x1a\x07a.proto\x3a\0' >body
"$program" answer --root wanted <body >wanted.reply || fail "answer: status $?"
"$program" answer --root protos --include first --include second a.proto <body >got.reply || fail "answer: status $?"
cmp -s wanted.reply got.reply || fail 'answer has another reply'
"$program" check --root protos --include first --include second >got.out 2>got.err || fail "check: status $?, $(<got.err)"
[ "$(<got.out)" = '4 files, no fault' ] || fail "check: $(<got.out)"
"$program" check --root faulty --include faults >got.out 2>got.err
got=$?
[ "$got" = 1 ] && [ "$(head -n 1 got.out)" = 'faults/b.proto:1:38: Unexpected' ] || fail "check of an included source: status $got, $(<got.out)"

# ---- protoc takes the same files by the same folders

if has_protoc 'nothing was compared with it'; then
    protoc -Iprotos -Ifirst -Isecond --include_imports --descriptor_set_out=protoc.pb a.proto || fail 'protoc refuses it'
    "$program" compile --root protos --include first --include second a.proto >got.pb
    for set in protoc.pb got.pb; do
        protoc --decode=google.protobuf.FileDescriptorSet google/protobuf/descriptor.proto <"$set" | grep -E '^  (name|dependency)' | sort >"$set.names"
    done
    cmp -s protoc.pb.names got.pb.names || fail 'protoc takes other files'
fi
echo "$0: $rows rows"
[ "$failures" = 0 ]
