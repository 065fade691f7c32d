#!/usr/bin/env bash
# ./build, and ./schema_server where the program is not built, over six small crates and with a program in the place of rt, which proves
# nothing. It says and leaves what rt ci does, each when this script lets it: what is copied, what is said at once and on the way, what is
# put in the program's place, two calls side by side, edits, failures, signals, kits that keep nothing, and no rt.
set -u
cd "$(dirname "$(readlink -f "$0")")/.." || exit 2
. tests/common.bash
. tests/left.bash
needs prlimit
clone=$folder/clone
built=$clone/crates/schema_server/out/schema_server
log=$clone/crates/schema_server/out/build.log
store=$folder/rattle-kept
mkdir -p "$folder/path" "$folder/kit" "$folder/go" "$folder/tmp" "$clone"/crates/{low,middle,other,schema_program,test_low}/src \
    "$clone"/crates/low/{specs,must-fail,out/rlib} "$clone"/crates/schema_server/{src,data} || exit 2
cp build schema_server HANDLES "$clone" || exit 2
cat >"$clone/crates.txt" <<'END'
# bottom up
low: thiserror   # the lowest

other: low
middle may_abort=1:  low
schema_program: middle,low
  schema_server: schema_program
test_low tests_may=Threads: low
END
touch "$clone"/crates/{low,middle,other,schema_program,test_low}/src/lib.rt "$clone"/crates/low/{README.md,specs/Low.antt,must-fail/a.edit} \
    "$clone"/crates/low/out/rlib/left "$clone"/crates/schema_server/{args,stdin,stdout,data/given,src/main.rt}
echo 'What a run passed is kept beside the kit' >"$folder/help"
cat >"$folder/path/rt" <<'RT'
#!/usr/bin/env bash
# Works on each thing until the file go/NAME is there, for a minute at most. It has a child, which ends after it, as those of rt do. What
# fails stands in the file fault.
here=$(cd "$(dirname "$0")/.." && pwd)
case $1 in
doc) echo "$here/kit/START-HERE.md" && exit ;;
help) cat "$here/help" >&2 && exit 2 ;;
esac
echo "$* CI=${CI-} RT_JOBS=${RT_JOBS-}" >>"$here/calls"
find . -mindepth 1 -printf '%y %P\n' | sort >"$here/copy"
stat -c %a .. "$TMPDIR" >"$here/modes"
cp crates.txt HANDLES "$here"
while kill -0 $$; do
    sleep 0.1
done 2>/dev/null &
work() {
    until [ -e "$here/go/$1" ]; do
        [ "$SECONDS" -lt 60 ] || exit 2
        sleep 0.1
    done
}
fault=$(cat "$here/fault" 2>/dev/null)
work look
if [ "$fault" = look ]; then
    echo "rt: no check reads $PWD/crates/low/x.rt: put it elsewhere" >&2
    echo '0 passed, 1 failed'
    exit 2
fi
failed=
for crate in low middle schema_program schema_server; do
    out=crates/$crate/out
    # What a proof reads: this crate and those below.
    sum+=$(cat "crates/$crate"/{src,specs}/* 2>/dev/null | cksum | tr ' ' _)
    kept=$here/rattle-kept/proof-$crate-$sum
    if [ -n "$failed" ]; then
        echo "rt: $crate NOT PROVED: its library $failed failed"
        continue
    fi
    mkdir -p "$out"
    if [ -e "$here/waits" ]; then
        echo "rt: $crate: another run on this machine is proving the same; waiting for it"
        work waited
    fi
    if [ -d "$kept" ]; then
        touch "$kept"
        said="rt: $crate is kept: an earlier run on this machine proved the same files over the same libraries"
    else
        [ "$crate" = schema_server ] || mkdir "$out/rlib"
        work "$crate"
        printf '%s\n' "== $crate" "fn $crate::a: proved"
        if [ "$fault" = "$crate" ]; then
            printf '%s\n' 'src/lib.rt:1:2: error: first' 'statements core: modules loaded=1 checked=0' "$(seq 20)" 'logic=not-proved'
            echo "rt: $crate NOT PROVED"
            failed=$crate
            continue
        fi
        said="rt: $crate proved"
        ! grep -q kept "$here/help" || mkdir -p "$kept"
    fi
    if [ "$crate" = schema_server ]; then
        printf '#!/bin/sh\necho "the program of %s: $*"\n' "$(cat crates/*/src/*)" >"$out/schema_server"
        chmod +x "$out/schema_server"
        echo >"$out/schema_server.by-rattle"
        [ ! -e "$here/large" ] || ln -f "$here/large" "$out/schema_server"
    fi
    echo "$said"
done
work run
if [ "$fault" = run ]; then
    echo 'rt: schema_server: what the program wrote, out/stdout, is not what its file stdout has: they differ first at byte 1, line 1'
    failed='schema_server (run)'
fi
[ -z "$failed" ] || { echo "rt: FAILED: $failed" && echo '3 passed, 1 failed' && exit 1; }
printf '%s\n' 'rt: schema_server ran, and wrote what its file stdout has' 'rt: ok; handles allowed: Threads, Wait, Net' '4 passed, 0 failed'
RT
chmod +x "$folder/path/rt"

# wrong TITLE: tells what was said and printed.
wrong() {
    fail "$1: $(cat "$folder/said" "$folder/printed")"
}

# call SCRIPT WORDS..: calls a script of the clone as a terminal does, in a process group of its own, where signals end a program though
# this script may be called where they do not, as in the background; sets `called`. `around` is what the call is made by.
around=()
call() {
    local script=$1
    shift
    : >"$folder/said"
    set -m
    TMPDIR=$folder/tmp PATH=$folder/path:$PATH PROGRESS_SECONDS=1 env --default-signal "${around[@]}" "$clone/$script" "$@" \
        >"$folder/printed" 2>"$folder/said" </dev/null &
    called=$!
    set +m
}

# said TEXT: waits until this text is said.
said() {
    local turn=0
    until [[ $(<"$folder/said") == *"$1"* ]]; do
        turn=$((turn + 1))
        if [ "$turn" = 300 ]; then
            wrong "not said: $1"
            return
        fi
        sleep 0.1
    done
}

# go NAMES..: what rt may end; stay NAMES..: what it may not.
go() {
    (cd "$folder/go" && touch "$@")
}
stay() {
    (cd "$folder/go" && rm -f "$@")
}

# ended STATUS: waits for the call's end, and for its status. Nothing is left that it started, and no temporary file.
ended() {
    local status rest
    wait "$called"
    status=$?
    [ "$status" = "$1" ] || wrong "status $status"
    rest=$(left "$folder/tmp")
    [ -z "$rest" ] || wrong "left running: $rest"
    rest=$(find "$folder/tmp" "${built%/*}" -mindepth 1 ! -name build.log ! -name schema_server ! -name old)
    [ -z "$rest" ] || wrong "left: $rest"
}

# stopped_by SIGNAL STATUS: ends the call, and what it said last is that it stopped.
stopped_by() {
    kill "-$1" -- "-$called"
    said 'stopped; '
    ended "$2"
}

# stands TEXT: the program that stands there.
stands() {
    [ "$("$built" a)" = "the program of $1: a" ] || fail "the program that stands there: $("$built" a)"
}

# The first call, Ctrl-C in the midst, and the next.
export CI=true RT_JOBS=7
touch "$folder/waits"
around=(sh -c 'umask 077; exec "$@"' '')
call build
said "build: the program is proved, crate by crate, and then built: the first time this takes $(sed -n "s/^takes='\(.*\)'$/\1/p" build)"
said 'build: Ctrl-C ends it, and the next call goes on from there'
said 'build: 0 min, 0 of 4 crates proved; at work: a look at all sources'
go look
said 'build: 0 min, 0 of 4 crates proved; at work: low (another run proves it)'
rm "$folder/waits"
go waited
said 'build: 0 min, 0 of 4 crates proved; at work: low'
go low
said 'build: 0 min, 1 of 4 crates proved; at work: middle'
stopped_by INT 130
said 'build: stopped; what is proved is kept, and the next call goes on from there'
[ ! -e "$built" ] || fail 'a program after Ctrl-C'
# What rt was given.
diff - "$folder/copy" <<'END' || fail 'another copy'
d .git
d crates
d crates/low
d crates/low/specs
d crates/low/src
d crates/middle
d crates/middle/src
d crates/schema_program
d crates/schema_program/src
d crates/schema_server
d crates/schema_server/data
d crates/schema_server/src
f HANDLES
f crates.txt
f crates/low/README.md
f crates/low/specs/Low.antt
f crates/low/src/lib.rt
f crates/middle/src/lib.rt
f crates/schema_program/src/lib.rt
f crates/schema_server/args
f crates/schema_server/data/given
f crates/schema_server/src/main.rt
f crates/schema_server/stdin
f crates/schema_server/stdout
END
diff - "$folder/crates.txt" <<'END' || fail 'another crates.txt'
low: thiserror   # the lowest
middle may_abort=1:  low
schema_program: middle,low
  schema_server: schema_program
END
cmp HANDLES "$folder/HANDLES" || fail 'another HANDLES'
# As root rt runs the program as nobody, below its folder for temporary files, whatever the umask.
[ "$(<"$folder/modes")" = $'711\n711' ] || fail "modes: $(<"$folder/modes")"
unset RT_JOBS
around=()

call schema_server compile a
said 'schema_server: 0 min, 1 of 4 crates proved; at work: middle'
go middle schema_program
said '3 of 4 crates proved; at work: schema_server'
# A call beside it, which waits and then finds what the first one built.
PATH=$folder/path:$PATH "$clone/build" >"$folder/beside" 2>&1 &
beside=$!
for ((turn = 0; turn < 300; turn++)); do
    [ ! -s "$folder/beside" ] || break
    sleep 0.1
done
go schema_server
said '4 of 4 crates proved; at work: a run of the program'
go run
ended 0
said "schema_server: proved and built in 0 min: $built"
[ "$(<"$folder/printed")" = 'the program of : compile a' ] || wrong 'the program was not called'
wait "$beside" && [ "$(<"$folder/beside")" = 'build: another call builds the program of this clone; waiting for it
build: the other call has built it' ] ||
    fail "a second call: $(<"$folder/beside")"
[ "$(sed 's/RT_JOBS=[1-4]$/RT_JOBS=/' "$folder/calls")" = 'ci CI= RT_JOBS=7
ci CI= RT_JOBS=' ] || fail "calls of rt: $(<"$folder/calls")"

# Nothing is proved where nothing changed that the program needs.
touch "$clone"/crates/{low/must-fail/a.edit,other/src/lib.rt,test_low/src/lib.rt}
call schema_server again
ended 0
[ ! -s "$folder/said" ] && [ "$(<"$folder/printed")" = 'the program of : again' ] || wrong 'called again'
call build
ended 0
[ "$(<"$folder/said")" = "build: is built already: $built" ] || wrong 'built again'
call build --help
ended 2
[ "$(wc -l <"$folder/calls")" = 2 ] || fail 'rt was called where all is built'

# What is edited right behind the copying is not built.
echo one >"$clone/crates/low/src/lib.rt"
printf '#!/bin/sh\n%s "$@" && case $* in */crates/low*) echo two >%s/crates/low/src/lib.rt ;; esac\n' "$(command -v cp)" "$clone" \
    >"$folder/path/cp"
chmod +x "$folder/path/cp"
call schema_server edited
ended 0
said 'it is of the sources as they were when this began, and some have changed since'
[ "$(<"$folder/printed")" = 'the program of one: edited' ] || wrong 'edited meanwhile'
rm "$folder/path/cp"
call build
ended 0
stands two
[ "$(wc -l <"$folder/calls")" = 4 ] || fail 'what was edited meanwhile was not built'

# Failures, which leave the program that stands there: a proof, the look at the sources, the run, the copying, and no room for the program.
ln "$built" "${built%/*}/old"
echo three >"$clone/crates/middle/src/lib.rt"
stay middle
echo middle >"$folder/fault"
call schema_server failing
said '1 of 4 crates proved; at work: middle'
stay run
go middle
said '1 of 4 crates proved; failed: middle; at work: the next'
go run
ended 3
[ "$(sed -n '/failed$/,$p' "$folder/said")" = "schema_server: middle failed
    src/lib.rt:1:2: error: first
$(seq 7 | sed 's/^/    /')
schema_server: all that rt said is in $log" ] && [ "$(grep -cx 20 "$log")" = 1 ] && [ ! -s "$folder/printed" ] || wrong 'a failure'
for fault in look run; do
    echo "$fault" >"$folder/fault"
    call build
    ended 3
    case $fault in
    look) said "build: rt ended with status 2
    rt: no check reads $clone/crates/low/x.rt: put it elsewhere" ;;
    run) said 'build: rt ended with status 1
    rt: schema_server: what the program wrote, out/stdout, is not what its file stdout has: they differ first at byte 1, line 1' ;;
    esac
    said "build: all that rt said is in $log"
done
rm "$folder/fault"
mv "$clone/crates/middle" "$folder"
call build
ended 3
said "build: the sources could not be copied to a folder in $folder/tmp"
mv "$folder/middle" "$clone/crates"
truncate -s 1M "$folder/large"
around=(prlimit --fsize=100000:)
call build
ended 3
said "build: the program could not be put into ${built%/*}"
around=()
rm "$folder/large"
[ "$built" -ef "${built%/*}/old" ] || fail 'a program that failed took the place of another'
stands two

# Signals, to this script alone too, and a kill that it does not hear.
stay middle
echo four >"$clone/crates/middle/src/lib.rt"
for signal in 'TERM 143' 'HUP 129'; do
    call build
    said '1 of 4 crates proved; at work: middle'
    stopped_by "${signal% *}" "${signal#* }"
done
for signal in 'TERM 143' 'KILL 137'; do
    call build
    said '1 of 4 crates proved; at work: middle'
    kill "-${signal% *}" "$called"
    ended "${signal#* }"
done 2>/dev/null

# What rt has not kept is named, and where it keeps nothing the next call begins anew.
call build
said '1 of 4 crates proved; at work: middle'
rm -r "$store"/proof-low-*
stopped_by INT 130
said 'build: stopped; what is proved is kept, and the next call goes on from there. Not kept are: low'
mv "$store" "$folder/elsewhere" && ln -s elsewhere "$store"
call build
said "build: Ctrl-C ends it, and the next call begins anew, since rt can keep nothing in $store"
stopped_by INT 130
rm "$store"
if [ "$(id -u)" = 0 ]; then
    chown 1 "$folder/elsewhere" && mv "$folder/elsewhere" "$store"
    call build
    said "begins anew, since rt can keep nothing in $store"
    stopped_by INT 130
    rm -r "$store"
fi
echo 'Nothing' >"$folder/help"
call build
said 'build: Ctrl-C ends it, and the next call begins anew, since this kit keeps nothing'
said '1 of 4 crates proved; at work: middle'
stopped_by INT 130
said 'build: stopped; the next call begins anew, since this kit keeps nothing'
go middle
call build
ended 0
stands 'two
four'
[ ! -e "$store" ] || fail 'something is kept'

# No rt: what the scripts need before is on the path, and nothing else.
touch "$clone/crates/low/src/lib.rt"
mkdir "$folder/without"
for tool in bash readlink find awk; do
    ln -s "$(command -v "$tool")" "$folder/without/$tool"
done
for script in build schema_server; do
    PATH=$folder/without "$clone/$script" >"$folder/printed" 2>"$folder/said"
    [ "$?" = 3 ] && [ ! -s "$folder/printed" ] && [ "$(wc -l <"$folder/said")" = 1 ] &&
        grep -q "^$script: there is no rt: put the folder bin of the Rattle kit on the PATH" "$folder/said" || wrong 'no rt'
done

grep -qF "$(sed -n "s/^takes='\(.*\)'$/\1/p" build)" README.md || fail 'README.md says something else of the time and the memory'
[ "$failures" = 0 ]
