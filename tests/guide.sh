#!/usr/bin/env bash
# docs/GUIDE.md as tests/page.bash follows it, in a fresh folder with copies of examples/ and tests/ and with the built program on the path.
# The routes of a block marked `nginx` are tried where nginx and curl are installed.
set -u
cd "$(dirname "$(readlink -f "$0")")/.." || exit 2
. tests/page.bash
. tests/nginx.bash
ln -s "$program" "$folder/path/schema_server" || exit 2
blocks docs/GUIDE.md

# through PATH WORDS..: the status of a request with these words of curl through nginx; its headers and body go to `head` and `got`.
through() {
    local path=$1
    shift
    curl -s --max-time 10 --unix-socket "$folder/nginx/socket" -D "$folder/head" -o "$folder/got" -w '%{http_code}' "$@" "http://gateway/$path"
}

# Whether the headers allow the guide's other origin.
allows() {
    tr -d '\r' <"$folder/head" | grep -qix 'access-control-allow-origin: https://pages.example'
}

# routed FILE: the page's routes in an nginx before the service, which then gets both paths, and no other. Where they answer OPTIONS,
# pages of another origin may read what comes.
routed() {
    local path
    start --root examples
    {
        echo 'location / { return 404; }'
        sed "s/:8080/:$port/" "$1"
    } >"$folder/routes"
    open_gateway "unix:$folder/nginx/socket" "$folder/routes" || fail "nginx was not started: $(<"$folder/nginx/faults")"
    printf '\0\0\0\0\2:\0' >"$folder/request"
    "$program" answer --root examples <"$folder/request" >"$folder/wanted"
    for path in v1 v1alpha; do
        path=grpc.reflection.$path.ServerReflection/ServerReflectionInfo
        through "$path" --data-binary "@$folder/request" -H 'content-type: application/grpc-web' >"$folder/status"
        cmp "$folder/got" "$folder/wanted" || fail "$path through nginx"
        if grep -q OPTIONS "$1"; then
            allows || fail "$path through nginx: another origin may not read it"
            [ "$(through "$path" -X OPTIONS)" = 204 ] && allows || fail "OPTIONS of $path through nginx"
        fi
    done
    [ "$(through other)" = 404 ] || fail "another path through nginx: $(<"$folder/nginx/faults")"
    close_gateway
    stop
}

if has nginx 'its routes were not tried' && has curl 'the routes of nginx were not tried'; then
    for routes in "$folder"/blocks/*.nginx; do
        routed "$routes"
    done
fi

mkdir "$folder/try" && cp -r examples tests "$folder/try" || exit 2
follow "$folder/try"
[ "$failures" = 0 ]
