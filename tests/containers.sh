#!/usr/bin/env bash
# What docs/GUIDE.md has for containers, without containers: the probe, before servers that answer, that are held, that are gone, and that
# answer something else; the Dockerfile and the files for Compose and Kubernetes, which agree with each other, the unit and the page; the
# server's words; and that a release has what the image is made of.
set -u
cd "$(dirname "$(readlink -f "$0")")/.." || exit 2
. tests/serving.bash

# probed STATUS LINE WORDS..: the probe with these words ends with this status, in time, and tells this line or nothing.
probed() {
    local status=$1 got begun=$SECONDS
    printf '%s' "${2:+probe: $2}" >"$folder/wanted"
    shift 2
    timeout 20 examples/service/probe "$@" >"$folder/said" 2>&1
    got=$?
    [ "$got" = "$status" ] && [ "$(<"$folder/said")" = "$(<"$folder/wanted")" ] || fail "probe $*: status $got, $(<"$folder/said")"
    [ $((SECONDS - begun)) -le 5 ] || fail "probe $*: it took $((SECONDS - begun)) s"
}

start --root examples
probed 0 '' "127.0.0.1:$port"
exec 3<>"/dev/tcp/127.0.0.1/$port"
probed 1 "127.0.0.1:$port: no answer within 3 seconds" "127.0.0.1:$port"
exec 3>&-
probed 0 '' "127.0.0.1:$port"
stop
probed 1 "127.0.0.1:$port: there is no connection" "127.0.0.1:$port"
start --root examples --clients 64
exec 3<>"/dev/tcp/127.0.0.1/$port"
probed 0 '' "127.0.0.1:$port"
exec 3>&-
stop
# An answer of many pieces: the services of 2,000 sources.
mkdir "$folder/many" && awk -v folder="$folder/many" -v files=2000 -f bench/sources.awk
start --root "$folder/many"
probed 0 '' "127.0.0.1:$port"
stop
for word in '' localhost 8080 :8080 127.0.0.1: 127.0.0.1:http; do
    probed 1 "$word: usage: probe [ADDRESS:PORT]" "$word"
done
probed 1 '127.0.0.1: usage: probe [ADDRESS:PORT]' 127.0.0.1 8080

# What other servers answer. Python's own has no POST; each connection to the other one gets the next of these answers.
cat >"$folder/others.py" <<'PYTHON'
import http.server
import socketserver
import sys

ANSWERS = [
    b"",
    b"SSH-2.0-x\r\n",
    b"HTTP/1.1 200 OK\r\n\r\n",
    b"HTTP/1.1 200 OK\r\n\r\n\x80\x00\x00\x00\x10grpc-status:12\r\n",
    b"HTTP/1.1 200 OK\r\n\r\n\x80\x00\x00\x00\x0fgrpc-status:0",
    b"HTTP/1.1 200 OK\r\n\r\n\x80\x00\x00\x00\x0fgrpc-status:0\r\n and more",
    b"HTTP/1.1 200 OK\r\n\r\n\x80\x00\x00\x00\x0fgrpc-status:0\r\n",
]


class Another(socketserver.BaseRequestHandler):
    def handle(self):
        got = b""
        while not got.endswith(b"\0\0\0\0\2:\0"):
            got += self.request.recv(4096)
        self.request.sendall(ANSWERS.pop(0))


class Plain(http.server.SimpleHTTPRequestHandler):
    def log_message(self, *_):
        pass


with socketserver.TCPServer(("127.0.0.1", 0), {"another": Another, "plain": Plain}[sys.argv[1]]) as server:
    print("listening on 127.0.0.1:%d" % server.server_address[1], flush=True)
    server.serve_forever()
PYTHON

# other_server WORD: starts one of them; sets `other` and `port`.
other_server() {
    : >"$folder/line"
    "$python" -B "$folder/others.py" "$1" >"$folder/line" 2>"$folder/faults" &
    other=$!
    says_port "$other" "$folder/line" || fail "$1 was not started: $(<"$folder/faults")"
}

if find_python http.server || untried Python 'other servers were not probed'; then
    other_server plain
    probed 1 "127.0.0.1:$port: another answer: HTTP/1.0 501 Unsupported method ('POST')" "127.0.0.1:$port"
    kill "$other"
    other_server another
    probed 1 "127.0.0.1:$port: the connection ended without an answer" "127.0.0.1:$port"
    probed 1 "127.0.0.1:$port: another answer: SSH-2.0-x" "127.0.0.1:$port"
    probed 1 "127.0.0.1:$port: another answer: HTTP/1.1 200 OK" "127.0.0.1:$port"
    probed 1 "127.0.0.1:$port: another answer: HTTP/1.1 200 OK grpc-status:12" "127.0.0.1:$port"
    probed 1 "127.0.0.1:$port: another answer: HTTP/1.1 200 OK grpc-status:0" "127.0.0.1:$port"
    probed 1 "127.0.0.1:$port: another answer: HTTP/1.1 200 OK grpc-status:0 and more" "127.0.0.1:$port"
    probed 0 '' "127.0.0.1:$port"
    kill "$other"
fi

# What the Dockerfile says. Of an instruction's words there are as many as between its brackets.
dockerfile=examples/service/Dockerfile
# said_by KEYWORD: what stands behind this word, on one line.
said_by() {
    sed -e ':line' -e '/\\$/N; s/\\\n */ /; t line' "$dockerfile" | sed -n "s/^$1 //p"
}
# words_of TEXT: the words of a list in brackets, with a blank between them.
words_of() {
    grep -o '\[".*"\]$' <<<"$1" | sed 's/^\["//; s/"\]$//; s/", "/ /g'
}
image=$(sed -n 's/^#.* -t \([^ ]*\) \.$/\1/p' "$dockerfile")
command=$(words_of "$(said_by CMD)")
read -r probe address <<<"$(words_of "$(said_by HEALTHCHECK)")"
[[ $command =~ ^serve\ --root\ (/[^ ]+)\ --listen\ 0\.0\.0\.0:([0-9]+)\  ]] || fail "$dockerfile: another command: $command"
root=${BASH_REMATCH[1]}
port=${BASH_REMATCH[2]}
[ "$(said_by EXPOSE)" = "$port" ] && [ "$address" = "127.0.0.1:$port" ] || fail "$dockerfile: another port than $port"
[ "$(words_of "$(said_by ENTRYPOINT)")" = 'tini -- schema_server' ] || fail "$dockerfile: another first process"
[[ $(said_by USER) =~ ^[1-9][0-9]*:[1-9][0-9]*$ ]] || fail "$dockerfile: a user that is no number, or root"
said_by COPY | grep -qx ".* $root" || fail "$dockerfile: nothing goes to $root"
grep -qF -e "$(sed -n 's/^# *docker build/docker build/p' "$dockerfile")" docs/GUIDE.md || fail "docs/GUIDE.md builds no image $image"
memory=$(sed -n 's/^MemoryMax=//p' examples/service/schema-server.service)
grep -qF -e "--memory ${memory,,} -p 127.0.0.1:$port:$port $image" docs/GUIDE.md || fail "docs/GUIDE.md does not run $image with $memory"

# The words are taken: with sources that are there, and no connection.
read -r -a words <<<"$command --connections 0"
words[2]=examples
words[4]=127.0.0.1:0
timeout 20 "$program" "${words[@]}" >"$folder/said" 2>&1 || fail "schema_server ${words[*]}: status $?, $(<"$folder/said")"

# What the other files say, a line for each place: these have to be the lines of the Dockerfile and of the unit.
cat >"$folder/read.py" <<'PYTHON'
import sys

import yaml

with open("examples/service/compose.yaml") as file:
    compose = yaml.safe_load(file)["services"]["schema-server"]
with open("examples/service/kubernetes.yaml") as file:
    deployment, service = yaml.safe_load_all(file)

pod = deployment["spec"]["template"]
(container,) = pod["spec"]["containers"]
(port,) = container["ports"]
(shared,) = service["spec"]["ports"]
assert [deployment["kind"], service["kind"]] == ["Deployment", "Service"]
assert deployment["spec"]["replicas"] > 1
assert deployment["spec"]["selector"]["matchLabels"] == service["spec"]["selector"] == pod["metadata"]["labels"]
assert shared["targetPort"] == port["name"]
assert pod["spec"]["securityContext"]["runAsNonRoot"] is True

print("build", compose["build"]["dockerfile"], "in", compose["build"]["context"], "of", compose["build"]["args"]["SOURCES"])
for line in (
    ["image", compose["image"]],
    ["command", *compose["command"]],
    ["ports", *compose["ports"]],
    ["probe", *compose["healthcheck"]["test"]],
    ["memory", compose["mem_limit"].upper()],
    ["image", container["image"]],
    ["command", *container["args"]],
    ["port", port["containerPort"], shared["port"]],
    *(["probe", *container[name]["exec"]["command"]] for name in ("startupProbe", "readinessProbe", "livenessProbe")),
    ["memory", container["resources"]["limits"]["memory"]],
):
    print(*line)
PYTHON
sources=$(said_by ARG)
sources=${sources#SOURCES=}
if find_python yaml || untried 'Python with yaml' 'the files for Compose and Kubernetes were not read'; then
    printf '%s\n' "build $dockerfile in ../.. of $sources" "image $image" "command $command" "ports 127.0.0.1:$port:$port" \
        "probe CMD $probe $address" "memory $memory" "image $image" "command $command" "port $port $port" "probe $probe $address" \
        "probe $probe $address" "probe $probe $address" "memory ${memory}i" >"$folder/wanted"
    "$python" -B "$folder/read.py" >"$folder/got" 2>&1
    same 'what the files for Compose and Kubernetes say' "$folder/wanted" "$folder/got"
fi

# What the image is made of: a release's package, and sources from a folder of its examples, beside which the package stands.
for tool in dpkg-deb dpkg-shlibdeps strip git; do
    has "$tool" 'no release was made' || exit "$((failures > 0))"
done
. tests/clone.bash
mkdir "$folder/out" && "$clone/share/release" "$folder/out" >"$folder/said" 2>&1 || fail "no release: $(<"$folder/said")"
dpkg-deb -x "$folder"/out/sagetower_*.deb "$folder/machine" || fail 'dpkg-deb does not unpack the package'
place=$folder/machine/usr/share/doc/sagetower
cp "$folder"/out/* "$place" || exit 2
while read -r name _; do
    [ "$(cd "$place" && compgen -G "${name/\$SOURCES/$sources}" | wc -l)" = 1 ] || fail "$dockerfile copies $name, which is not there once"
done <<<"$(said_by COPY)"
for name in "$dockerfile" examples/service/compose.yaml examples/service/kubernetes.yaml; do
    cmp "$name" "$place/$name" || fail "$name is not in a release"
done
[ -x "$folder/machine/usr/bin/schema_server" ] || fail 'the package has no command schema_server'
cmp examples/service/probe "$folder/machine$probe" && [ -x "$folder/machine$probe" ] || fail "the package has no $probe"
[ "$failures" = 0 ]
