#!/usr/bin/env bash
# What share/release makes of the built program and of the files as they stand here, in a clone whose commit has these: the files of the package
# and of the tarball, their modes and owners; both installed below fresh folders, run there, and taken away again; the same bytes when they
# are made again; and what is refused.
set -u
cd "$(dirname "$(readlink -f "$0")")/.." || exit 2
. tests/common.bash
needs dpkg-deb dpkg-shlibdeps strip git
. tests/serving.bash
. tests/clone.bash
version=$("$built" --version) && version=${version#schema_server } && version=${version%%,*}
package=sagetower_${version}_amd64.deb
tarball=sagetower-$version-linux-x86_64.tar.gz
commit=$(git -C "$clone" rev-parse HEAD)
commit=${commit:0:12}

# released STATUS TEXT WORDS..: share/release of the clone with these words ends with this status, and says this.
released() {
    local status=$1 text=$2 got
    shift 2
    "$clone/share/release" "$@" >"$folder/said" 2>&1
    got=$?
    [ "$got" = "$status" ] && grep -qF -e "$text" "$folder/said" || fail "share/release $*: status $got, $(<"$folder/said")"
}

# A folder in which something stands. `stands` prints what stands there.
out=$folder/out
mkdir "$out" && echo 'of somebody' >"$out/notes" && echo 'an older one' >"$out/$package" || exit 2
released 0 "$package" "$out"
stands() {
    find "$out" -mindepth 1 -printf '%P\n' | sort | paste -sd ' '
}
[ "$(stands)" = "notes $tarball $package" ] || fail "other files: $(stands)"
[ "$(<"$out/notes")" = 'of somebody' ] || fail 'a file of another name was touched'
(cd "$out" && sha256sum -c --quiet "$folder/said") || fail 'other sums than those that are printed'
[ -f "$out/$package" ] && [ -f "$out/$tarball" ] || exit 1

# The files, by hand, with their modes.
{
    cat <<'FILES'
755 bin/schema_server
644 lib/sagetower/commit
755 lib/sagetower/probe
755 lib/sagetower/schema_server
644 lib/systemd/system/schema-server.service
644 lib/systemd/system/schema-server@.service
644 share/bash-completion/completions/schema_server
644 share/doc/sagetower/CHANGELOG.md
644 share/doc/sagetower/README.md
644 share/doc/sagetower/docs/DIFFERENCES.md
644 share/doc/sagetower/docs/FAULTS.md
644 share/doc/sagetower/docs/GUIDE.md
644 share/doc/sagetower/docs/LANGUAGE.md
644 share/doc/sagetower/docs/REFLECTION.md
644 share/doc/sagetower/tests/reflection.proto
644 share/fish/vendor_completions.d/schema_server.fish
644 share/man/man1/schema_server.1.gz
644 share/zsh/vendor-completions/_schema_server
FILES
    [ ! -f LICENSE ] || echo '644 share/doc/sagetower/copyright'
    git -C "$clone" ls-files -s examples | awk '{ print substr($1, 4), "share/doc/sagetower/" $4 }'
} >"$folder/files"

# wanted PREFIX: what `listed` prints of these files in a tar, where this stands before their paths.
wanted() {
    sed "s|^755 |-rwxr-xr-x 0/0 2037-01-02 03:04:05 $1|; s|^644 |-rw-r--r-- 0/0 2037-01-02 03:04:05 $1|" | sort -k 5
}
listed() {
    TZ=UTC tar -tv --full-time --numeric-owner | awk '{ print $1, $2, $4, $5, $6 }' | sort -k 5
}
wanted "sagetower-$version/" <"$folder/files" >"$folder/wanted"
gzip -dc "$out/$tarball" | listed >"$folder/got"
same "files of $tarball" "$folder/wanted" "$folder/got"
(cat "$folder/files" && echo '644 share/doc/sagetower/changelog.gz') | wanted ./usr/ >"$folder/wanted"
dpkg-deb --fsys-tarfile "$out/$package" | listed >"$folder/all"
grep -v '^d' "$folder/all" >"$folder/got"
same "files of $package" "$folder/wanted" "$folder/got"
grep '^d' "$folder/all" | grep -v '^drwxr-xr-x 0/0 2037-01-02 03:04:05 ' && fail 'folders of another mode, owner or time'

# What the package says of itself. The C library is as new as the program's symbols ask, and as docs/GUIDE.md says.
[ "$(dpkg-deb -f "$out/$package" Package Version Architecture | paste -sd ,)" = "Package: sagetower,Version: $version,Architecture: amd64" ] ||
    fail 'another package, version or architecture'
depends=$(dpkg-deb -f "$out/$package" Depends)
needed=$(objdump -T "$built" | grep -o 'GLIBC_[0-9.]*' | cut -c 7- | sort -uV | tail -n 1)
if [[ $depends =~ libc6\ \(\>=\ ([0-9.]+)\) ]] && dpkg --compare-versions "${BASH_REMATCH[1]}" ge "${needed:?}"; then
    grep -qF "glibc ${BASH_REMATCH[1]} or later" docs/GUIDE.md || fail "docs/GUIDE.md has another glibc than ${BASH_REMATCH[1]}"
else
    fail "needs glibc $needed, and depends on $depends"
fi
dpkg-deb --ctrl-tarfile "$out/$package" | tar -t | sort >"$folder/got"
printf '%s\n' ./ ./control ./md5sums | sort >"$folder/wanted"
same 'what dpkg reads: no script, which could start something' "$folder/wanted" "$folder/got"
if has lintian 'it did not look at the package'; then
    words=()
    [ -f LICENSE ] || untried LICENSE 'the package has no copyright file, an error of lintian' || words=(--suppress-tags no-copyright-file)
    lintian "${words[@]}" "$out/$package" >"$folder/said" 2>"$folder/warned"
    ! grep '^E: ' "$folder/said" || fail 'errors of lintian'
fi

# What is installed has to do: by protoc's bytes of the examples (tests/examples), and by a row of answers.txt.
varint() {
    local number=$1
    while [ "$number" -gt 127 ]; do
        printf '%02x' $((number % 128 + 128))
        number=$((number / 128))
    done
    printf '%02x' "$number"
}
while IFS= read -r name; do
    hex=$(<"tests/examples/${name%.proto}.hex")
    printf '0a%s%s' "$(varint $((${#hex} / 2)))" "$hex"
done <tests/examples/order >"$folder/set"
IFS='|' read -r sources _ _ body answer < <(grep -m 1 '^F|once' tests/answers.txt)
mkdir "$folder/$sources" "$folder/broken" || exit 2
printf 'syntax = "proto3"; import "b.proto";' | tee "$folder/F/a.proto" >"$folder/F/c.proto"
printf 'syntax = "proto3"; package p; service S {}' >"$folder/F/b.proto"
printf 'syntax = "proto3"; message A { X x = 1; }' >"$folder/broken/a.proto"
from_hex "$body" >"$folder/request"
tunables=$(sed -n 's/^tunables=//p' schema_server)

# ended STATUS TEXT WORDS..: a run of what is installed with these words ends with this status, and prints a line with this text.
ended() {
    local status=$1 text=$2 got
    shift 2
    "$program" "$@" >"$folder/printed" 2>&1 </dev/null
    got=$?
    [ "$got" = "$status" ] && grep -qF -e "$text" "$folder/printed" || fail "$program $*: status $got, $(<"$folder/printed")"
}

# served TUNABLES: the service has these in its environment, answers, is the program itself, and ends by a signal. The C library cuts the text
# into its parts where it stands.
served() {
    local got
    start --root "$folder/F"
    got=$(tr '\0:' '\n\n' <"/proc/$server/environ" |
        awk '/^GLIBC_TUNABLES=/ || (inside && /^glibc[.]/) { inside = 1; print; next } { inside = 0 }' | paste -sd :)
    [ "$got" = "GLIBC_TUNABLES=$1" ] || fail "$program has not the tunables $1, but $got"
    [ "$(readlink "/proc/$server/exe")" = "$(readlink -f "$prefix/lib/sagetower/schema_server")" ] || fail "$program: another process serves"
    "$prefix/lib/sagetower/probe" "127.0.0.1:$port" >"$folder/said" 2>&1 || fail "$(<"$folder/said")"
    if has curl 'nothing was asked of the service'; then
        got=$(curl -sS --max-time 20 -H 'content-type: application/grpc-web' --data-binary "@$folder/request" \
            "$url/grpc.reflection.v1.ServerReflection/ServerReflectionInfo" | to_hex)
        [ "$got" = "$answer" ] || fail "$program serve: $got"
    fi
    kill "$server"
    wait "$server" 2>/dev/null
    got=$?
    server=
    [ "$got" = 143 ] || fail "$program serve: status $got at SIGTERM"
}

# tried PREFIX: runs what is installed below it.
tried() {
    local word link doc=$1/share/doc/sagetower
    prefix=$1
    program=$1/bin/schema_server
    ("$built" --version && echo "commit $commit") >"$folder/wanted"
    for word in --version -V; do
        "$program" "$word" >"$folder/got" || fail "$program $word: status $?"
        same "$program $word" "$folder/wanted" "$folder/got"
    done
    "$program" compile --root examples | to_hex | cmp - "$folder/set" || fail "$program compile: another set than protoc's files"
    [ "$("$program" answer --root "$folder/F" <"$folder/request" | to_hex)" = "$answer" ] || fail "$program answer: another response"
    ended 0 "$(find examples -name '*.proto' | wc -l) files, no fault" check --root examples
    ended 1 'a.proto:1:32: TypeNotFound' compile --root "$folder/broken"
    ended 2 --root compile
    ended 3 'device: folder' compile --root "$folder/none"
    served "$tunables"
    GLIBC_TUNABLES=glibc.malloc.arena_max=3:glibc.malloc.perturb=1 served glibc.malloc.arena_max=3:glibc.malloc.perturb=1
    GLIBC_TUNABLES='' served ''
    if command -v man >/dev/null && command -v groff >/dev/null; then
        man -M "$1/share/man" schema_server 2>&1 | grep -q 'schema_server compile --root DIR' || fail 'man does not show the page'
    fi
    bash -c '. "$1" && complete -p schema_server' - "$1/share/bash-completion/completions/schema_server" >"$folder/got" || fail 'no completion'
    # What docs/GUIDE.md leads to, and the files of tests/ in its lines.
    (
        cd "$doc/docs" || exit
        grep -o '](\([^)#]*\)' GUIDE.md | cut -c 3-
        awk '/^```sh/ { inside = 1 } /^```$/ { inside = 0 } inside' GUIDE.md | grep -o 'tests/[a-z_.]*' | sed 's|^|../|'
    ) >"$folder/links"
    [ "$(wc -l <"$folder/links")" -gt 5 ] || fail 'docs/GUIDE.md leads to nothing'
    while IFS= read -r link; do
        [ -z "$link" ] || [ -e "$doc/docs/$link" ] || fail "docs/GUIDE.md leads to $link, which is not installed"
    done <"$folder/links"
}

# The package, unpacked. Its unit names the program where it is then.
unpacked=$folder/unpacked
dpkg-deb -x "$out/$package" "$unpacked" || fail 'dpkg-deb does not unpack it'
(cd "$unpacked" && dpkg-deb --ctrl-tarfile "$out/$package" | tar -xO ./md5sums | tee "$folder/sums" | md5sum -c --quiet) || fail 'other sums'
[ "$(wc -l <"$folder/sums")" = "$(find "$unpacked" -type f | wc -l)" ] || fail 'not a sum for each file'
tried "$unpacked/usr"
unit=lib/systemd/system/schema-server.service
sed 's|/usr/local/bin/schema_server|/usr/bin/schema_server|' examples/service/schema-server.service | cmp - "$unpacked/usr/$unit" || fail 'another unit'
grep -q '^ExecStart=/usr/bin/schema_server serve ' "$unpacked/usr/$unit" || fail 'the unit does not start the program that is installed'
if has systemd-analyze 'the unit was not verified'; then
    cp -r "$unpacked" "$folder/machine" && cp /usr/lib/systemd/system/*.target "$folder/machine/usr/lib/systemd/system" || exit 2
    systemd-analyze verify --man=no --root="$folder/machine" schema-server.service >"$folder/said" 2>&1 && [ ! -s "$folder/said" ] ||
        fail "systemd-analyze: $(<"$folder/said")"
fi

# The package, installed by dpkg where nothing is yet, and then taken away. No libc6 is there, whose files the machine lends.
as_root=()
[ "$(id -u)" = 0 ] || as_root=(fakeroot)
if [ "$(id -u)" = 0 ] || has fakeroot 'the package was not installed by dpkg'; then
    fresh=$folder/fresh
    mkdir -p "$fresh"/var/lib/dpkg/{info,updates,triggers} && : >"$fresh/var/lib/dpkg/status" || exit 2
    packaged() {
        PATH=$PATH:/usr/sbin:/sbin "${as_root[@]}" dpkg --root="$fresh" --log="$folder/log" --force-depends "$@" >"$folder/said" 2>&1 ||
            fail "dpkg $*: $(<"$folder/said")"
    }
    packaged --install "$out/$package"
    diff -r "$unpacked/usr" "$fresh/usr" || fail 'dpkg installs something else'
    tried "$fresh/usr"
    packaged --purge sagetower
    rest=$(find "$fresh" -mindepth 1 -path "$fresh/var" -prune -o -print)
    [ -z "$rest" ] || fail "left by dpkg: $rest"
    grep -rl sagetower "$fresh/var/lib/dpkg/info" "$fresh/var/lib/dpkg/status" && fail 'dpkg still knows it'
fi

# The tarball, by the lines of docs/GUIDE.md, below a home whose folders have modes of their own, and a link for bin.
home="$folder/a home"
mkdir -p "$home/.local/share" "$home/programs" && ln -s ../programs "$home/.local/bin" && chmod 700 "$home/.local" "$home/.local/share" || exit 2
# line PATTERN: runs the guide's line with it in that home, in the folder with the tarball.
line() {
    local line
    line=$(grep -o "\`[^\`]*$1[^\`]*\`" docs/GUIDE.md | tr -d '\`')
    (cd "$out" && HOME=$home bash -c "${line:?}") >"$folder/said" 2>&1 || fail "docs/GUIDE.md: $line: $(tail -n 1 "$folder/said")"
}
line 'tar -xzf [^ ]* -C ~'
[ "$(stat -c %a "$home/.local" "$home/.local/share" | paste -sd ' ')" = '700 700' ] || fail 'a folder has another mode'
[ "$(readlink "$home/.local/bin")" = ../programs ] || fail 'a link to a folder is gone'
cmp examples/service/schema-server.service "$home/.local/$unit" || fail 'the unit of the tarball is another'
tried "$home/.local"

line 'tar -tzf'
[ -z "$(find "$home" -type f)" ] || fail "left of the tarball: $(find "$home" -type f)"

# The wrapper, called in several ways: the words, the input and the status are as they are.
cp -r "$unpacked/usr" "$home/some place" && mkdir "$home/links" || exit 2
ln -s '../some place/bin/schema_server' "$home/links/schema_server" && ln -s "$home/links/schema_server" "$home/links/twice" || exit 2
program="$home/some place/lib/sagetower/schema_server"
printf '#!/bin/sh\nprintf "<%%s>" "$@"\ncat\nexit 7\n' >"$program" || exit 2
# told WANTED COMMAND..: what a command in the home prints, with `in` as its input; it ends with 7.
told() {
    local wanted=$1 got
    shift
    got=$(cd "$home" && printf in | "$@" 2>&1; echo " $?")
    [ "$got" = "$wanted 7" ] || fail "${*@Q}: $got"
}
told '<>in' 'some place/bin/schema_server' ''
told '<a  b><*><--version><\>in' "$home/links/schema_server" 'a  b' '*' --version '\'
told '<--version><-V>in' links/twice --version -V
told '<-V>in' links/twice -V
told '<compile>in' env -C 'some place/bin' ./schema_server compile
told '<compile>in' env -C 'some place/bin' sh schema_server compile
for word in 'some place/bin' "$home/some place/bin" links; do
    told '<compile>in' env PATH="$word:$PATH" CDPATH=/usr schema_server compile
done
rm "$program"
program="$home/some place/bin/schema_server"
ended 3 "there is no program $home/some place/lib/sagetower/schema_server:" --version

# Made again in another clone, where it is another time, and with files that are in no release: the same bytes.
git clone -q "$clone" "$folder/again" && mkdir "$folder/second" && echo 'of somebody' >"$folder/again/examples/new.proto" || exit 2
(umask 077 && cd "$folder/again" && TZ=Asia/Tokyo LANG=de_DE.UTF-8 share/release ../second) >"$folder/said" 2>&1 || fail "$(<"$folder/said")"
for name in "$package" "$tarball"; do
    cmp "$out/$name" "$folder/second/$name" || fail "$name has other bytes when it is made again"
    [ "$(stat -c %a "$folder/second/$name")" = 644 ] || fail "$name may not be read by all"
done

# What is refused leaves the folder as it was.
(cd "$out" && sha256sum -- *) >"$folder/before"
printf '#!/bin/sh\necho "$VERSION"\n' >"$folder/feigned" && chmod +x "$folder/feigned" || exit 2
released 2 'usage: share/release FOLDER'
released 2 'usage: share/release FOLDER' --help
released 1 "$folder/none is no folder" "$folder/none"
released 1 "$out/notes is no folder" "$out/notes"
SCHEMA_SERVER=$folder/feigned VERSION='schema_server 0.0.1, logic 0' released 1 'CHANGELOG.md does not say what 0.0.1 has' "$out"
SCHEMA_SERVER=$folder/feigned VERSION='another program' released 1 'tells no version: another program' "$out"
echo >>"$clone/README.md"
released 1 ' M README.md' "$out"
git -C "$clone" checkout -q README.md
touch "$clone/crates/new.rt"
released 1 '?? crates/new.rt' "$out"
rm "$clone/crates/new.rt"
mkdir "$folder/third" "$folder/third/$tarball"
released 1 "$folder/third/$tarball is a folder" "$folder/third"
[ "$(ls -A "$folder/third")" = "$tarball" ] || fail "left of a release that was refused: $(ls -A "$folder/third")"
mv "$clone/.git" "$folder/git"
released 1 'is no clone' "$out"
mv "$folder/git" "$clone/.git"
[ "$(stands)" = "notes $tarball $package" ] || fail "what was refused left other files: $(stands)"
(cd "$out" && sha256sum -c --quiet "$folder/before") || fail 'what was refused changed a file'

[ "$failures" = 0 ]
