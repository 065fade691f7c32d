#!/usr/bin/env bash
# README.md as tests/page.bash follows it, in a fresh clone of this repository's last commit, where the built program stands as if it was proved
# there. An rt that only fails shows that nothing is proved anew.
set -u
cd "$(dirname "$(readlink -f "$0")")/.." || exit 2
. tests/common.bash
needs git
git rev-parse -q --verify HEAD >/dev/null 2>&1 || skip 'commit that could be cloned'
. tests/page.bash
blocks README.md
git clone -q . "$folder/try" && mkdir -p "$folder/try/crates/schema_server/out" || exit 2
cp "$program" "$folder/try/crates/schema_server/out/schema_server" || exit 2
printf '#!/bin/sh\nexit 2\n' >"$folder/path/rt" && chmod +x "$folder/path/rt" || exit 2
follow "$folder/try"
[ "$failures" = 0 ]
