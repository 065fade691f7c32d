#!/usr/bin/env bash
# `compile --output FILE` harms nothing: what stands at FILE keeps its mode and its owner, links stay, what is open is written to from
# where it is, and a file whose place no other can take is written over. What may not be written is seen as an ordinary user, since
# root may write everything.
set -u
cd "$(dirname "$(readlink -f "$0")")/.." || exit 2
. tests/users.bash
mkdir "$folder/sources"
printf 'syntax = "proto3"; message A { int32 x = 1; }' >"$folder/sources/a.proto"
# The set, by hand.
from_hex 0a240a07612e70726f746f22110a0141120c0a0178180120012805520178620670726f746f33 >"$folder/set"

# failed TITLE: says what is not as it has to be.
failed() {
    fail "as user $user: $1"
}

# place NAME: an empty folder, which is the user's.
place() {
    at=$folder/$user.$1
    mkdir "$at" && chown "$user" "$at"
}

# compile FILE: the run that writes there.
compile() {
    "${as_user[@]}" "$program" compile --root "$folder/sources" --output "$1"
}

# written TITLE FILE: a run that writes the set there, and says nothing.
written() {
    local got
    compile "$2" >"$folder/said" 2>&1
    got=$?
    if [ "$got" != 0 ] || [ -s "$folder/said" ] || ! cmp "$folder/set" "$2"; then
        failed "$1: status $got, $(cat "$folder/said")"
    fi
}

# refused TITLE FILE: a run that ends with `device: output`.
refused() {
    local got
    compile "$2" >"$folder/said" 2>&1
    got=$?
    if [ "$got" != 3 ] || [ "$(cat "$folder/said")" != 'device: output' ]; then
        failed "$1: status $got, $(cat "$folder/said")"
    fi
}

# written_over TITLE FILE: a run that writes the set to the file itself, which had more bytes.
written_over() {
    local was
    printf '%0999d' 0 >"$2"
    was=$(stat -c '%a %u %g %i' "$2")
    written "$1" "$2"
    [ "$(stat -c '%a %u %g %i' "$2")" = "$was" ] || failed "$1: it was $was, and is $(stat -c '%a %u %g %i' "$2")"
}

# left TITLE FILE: a refused run, by which nothing of the file changes.
left() {
    local was
    was=$(stat -c '%a %u %g %i %y %z' "$2")
    refused "$1" "$2"
    [ "$(stat -c '%a %u %g %i %y %z' "$2")" = "$was" ] || failed "$1: it has changed"
}

# holds TITLE FOLDER NAME..: these names, in their order, stand there, and no other.
holds() {
    local title=$1 where=$2
    shift 2
    [ "$(ls -A "$where")" = "$(printf '%s\n' "$@")" ] || failed "$title: there stand $(ls -Am "$where")"
}

# is_link TITLE LINK TARGET: the link is the one that it was.
is_link() {
    [ "$(readlink "$2")" = "$3" ] || failed "$1: the link is gone, or is another"
}

# Files by their names: new ones, and those that stand there.
files() {
    local mode long
    place files
    written 'a new file' "$at/set.pb"
    [ "$(stat -c '%a %u' "$at/set.pb")" = "644 $user" ] || failed "a new file: $(stat -c '%a %u' "$at/set.pb")"
    for mode in 600 640 666 755; do
        chmod "$mode" "$at/set.pb"
        echo 'what stood there' >"$at/set.pb"
        written "mode $mode" "$at/set.pb"
        [ "$(stat -c '%a %u' "$at/set.pb")" = "$mode $user" ] || failed "mode $mode: $(stat -c '%a %u' "$at/set.pb")"
    done
    long=$(printf '%0255d' 0)
    written 'a long name, new' "$at/$long"
    written 'a long name, again' "$at/$long"
    refused 'a name too long' "$at/0$long"
    refused 'a file as a folder' "$at/set.pb/"
    refused 'a new file as a folder' "$at/new.pb/"
    refused 'no name' ''
    holds files "$at" "$long" set.pb
}

# Links to folders, to files, to links and to nothing.
links() {
    place links
    mkdir "$at/folder"
    chown "$user" "$at/folder"
    ln -s folder "$at/to_folder"
    refused 'a folder' "$at/folder"
    refused 'a link to a folder' "$at/to_folder"
    refused 'a link to a folder, as a folder' "$at/to_folder/"
    is_link 'a link to a folder' "$at/to_folder" folder
    echo 'what stood there' >"$at/file"
    chown "$user" "$at/file"
    chmod 600 "$at/file"
    ln -s ../file "$at/folder/to_file"
    ln -s to_folder/to_file "$at/to_link"
    written 'a link to a link to a file' "$at/to_link"
    is_link 'a link to a link' "$at/to_link" to_folder/to_file
    is_link 'a link to a file' "$at/folder/to_file" ../file
    [ "$(stat -c '%a %F' "$at/file")" = '600 regular file' ] || failed "a link to a file: $(stat -c '%a %F' "$at/file")"
    ln -s "$at/folder/made" "$at/to_free"
    written 'a dangling link' "$at/to_free"
    is_link 'a dangling link' "$at/to_free" "$at/folder/made"
    rm "$at/folder/made"
    (cd "$at" && compile to_free && cmp "$folder/set" folder/made && compile to_free) || failed 'a dangling link from its folder'
    ln -s none/made "$at/to_none"
    refused 'a link into no folder' "$at/to_none"
    ln -s round "$at/round"
    refused 'a link to itself' "$at/round"
    holds links "$at" file folder round to_folder to_free to_link to_none
    holds 'what links name' "$at/folder" made to_file
}

# What is open: the set comes after what was written, and before what is written next.
open() {
    local name null
    place open
    cat <(echo head) "$folder/set" <(echo tail) >"$at/wanted"
    ln -s /dev/stdout "$at/to_output"
    for name in - /dev/stdout /dev/fd/1 /proc/self/fd/1 "$at/to_output"; do
        (echo head; compile "$name"; echo tail) >"$at/log"
        cmp "$at/wanted" "$at/log" || failed "$name to a file"
        (echo head; compile "$name"; echo tail) | cmp "$at/wanted" - || failed "$name to a pipe"
        echo head >"$at/log"
        (compile "$name"; echo tail) >>"$at/log"
        cmp "$at/wanted" "$at/log" || failed "$name to the end of a file"
    done
    is_link 'a link to standard output' "$at/to_output" /dev/stdout
    compile /dev/stdout >/dev/full 2>"$folder/said"
    [ "$? $(cat "$folder/said")" = '3 device: output' ] || failed "/dev/stdout, which is full: $(cat "$folder/said")"
    # A file that another descriptor leads to stays as it was.
    exec 3>"$at/log"
    echo head >&3
    refused 'a file that is open' /dev/fd/3
    echo tail >&3
    exec 3>&-
    printf 'head\ntail\n' | cmp - "$at/log" || failed 'a file that is open: it has changed'
    # The pipe is that of this script's user.
    if [ ${#as_user[@]} = 0 ]; then
        compile >(cat >"$at/piped") || failed 'an open pipe'
        wait $!
        cmp "$folder/set" "$at/piped" || failed 'an open pipe'
    fi
    mkfifo -m 666 "$at/pipe"
    # It ends by itself where nobody writes.
    timeout 20 cat "$at/pipe" >"$at/read" &
    compile "$at/pipe" || failed 'a pipe'
    wait $!
    cmp "$folder/set" "$at/read" || failed 'a pipe'
    [ -p "$at/pipe" ] || failed 'a pipe is none any more'
    null=$(stat -c '%t %T %a' /dev/null)
    compile /dev/null || failed /dev/null
    [ "$(stat -c '%t %T %a' /dev/null)" = "$null" ] || failed '/dev/null is another'
    refused /dev/full /dev/full
    rm -f "$at/piped"
    holds 'what is open' "$at" log pipe read to_output wanted
}

# What an ordinary user may not do.
ordinary() {
    place kept
    echo 'what stood there' >"$at/file"
    chown "$user" "$at/file"
    chmod 400 "$at/file"
    left 'a file that may only be read' "$at/file"
    holds 'a file that may only be read' "$at" file
    place closed
    touch "$at/file"
    chown "$user" "$at/file"
    chmod 555 "$at"
    written_over 'a file in a folder that may not be written' "$at/file"
    refused 'a new file in a folder that may not be written' "$at/new"
    holds 'a folder that may not be written' "$at" file
    chmod 755 "$at"
}

# Files of root beside those of the user.
of_root() {
    place of_root
    echo 'what stood there' >"$at/file"
    left "root's file" "$at/file"
    touch "$at/shared"
    chmod 666 "$at/shared"
    written_over "root's file, which all may write" "$at/shared"
    chown 0 "$at"
    chmod 1777 "$at"
    written_over "root's file in a folder that all may write" "$at/shared"
    holds "root's files" "$at" file shared
}

files
links
open
if [ "$user" = 0 ]; then
    # Root writes to a user's file: it stays the user's.
    place of_user
    echo 'what stood there' >"$at/file"
    chown 65534:65534 "$at/file"
    chmod 640 "$at/file"
    written "a user's file" "$at/file"
    [ "$(stat -c '%a %u %g' "$at/file")" = '640 65534 65534' ] || failed "a user's file: $(stat -c '%a %u %g' "$at/file")"
fi
if become_ordinary 'what may not be written was not tried'; then
    if [ "${#as_user[@]}" != 0 ]; then
        files
        links
        open
        of_root
    fi
    ordinary
    user=$(id -u)
    as_user=()
fi
# A file that is mounted.
place mounted
touch "$at/file" "$at/other"
export -f compile written written_over failed fail
export folder program user
mount_and_write() {
    as_user=()
    mount --bind "$1/other" "$1/file" && written_over 'a file that is mounted' "$1/file" && umount "$1/file" && [ "$failures" = 0 ]
}
export -f mount_and_write
# shellcheck disable=SC2016 # the words are the inner shell's
if ! unshare -rm sh -c 'mount --bind "$0/other" "$0/file"' "$at" 2>/dev/null; then
    untried 'way to mount a file' 'one that is mounted was not tried'
elif ! unshare -rm bash -c 'failures=0; mount_and_write "$1"' "$0" "$at" || ! cmp "$folder/set" "$at/other"; then
    failed 'a file that is mounted'
fi
holds 'a file that is mounted' "$at" file other
[ "$failures" = 0 ]
