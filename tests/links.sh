#!/usr/bin/env bash
# Links, pipes, devices and what may not be read below the root of `compile`: a link is followed unless it leads to a folder in which
# it lies, and no run waits for a pipe. What may not be read is seen as an ordinary user, since root may read everything.
set -u
cd "$(dirname "$(readlink -f "$0")")/.." || exit 2
. tests/users.bash
runs=0
# The sets of a.proto alone, and of p/b.proto and the a.proto that imports it, by hand.
alone=0a240a07612e70726f746f22110a0141120c0a0178180120012805520178620670726f746f33
imported=0a1b0a09702f622e70726f746f12017032030a0153620670726f746f330a1c0a07612e70726f746f1a09702f622e70726f746f620670726f746f33

# place TITLE: goes to a new folder with one source, beside which lies another folder with one.
place() {
    title=$1
    runs=$((runs + 1))
    mkdir -p "$folder/$runs/root" "$folder/$runs/elsewhere" && cd "$folder/$runs/root" || exit 2
    printf 'syntax = "proto3"; message A { int32 x = 1; }' >a.proto
    printf 'syntax = "proto3"; package p; service S {}' >../elsewhere/b.proto
}

# ends STATUS LINE DIGITS: compiles the folder, which ends so within ten seconds, with this first line of its faults and this set.
ends() {
    local got line set
    "${as_user[@]}" timeout 10 "$program" compile --root . >"$folder/set" 2>"$folder/faults"
    got=$?
    line=$(head -n 1 "$folder/faults")
    set=$(to_hex "$folder/set")
    if [ "$got" != "$1" ] || [ "$line" != "$2" ] || [ "$set" != "$3" ]; then
        fail "as user $user: $title: status $got, $line, $set"
    fi
}

refused() {
    ends 3 'device: folder' ''
}

# Links to a folder in which they lie.
circles() {
    place 'a link to its folder'
    ln -s . me
    refused
    place 'two links to their folder'
    ln -s . me
    ln -s ../root me_too
    refused
    place 'a link to the folder above'
    mkdir sub
    ln -s .. sub/up
    refused
    place 'a link to a folder two above, of which one is no root'
    mkdir -p sub/sub
    ln -s .. sub/sub/up
    refused
    place 'a link to the root by its whole path'
    mkdir sub
    ln -s "$PWD" sub/root
    refused
    place 'a link to a folder above the root'
    ln -s .. up
    refused
    place 'folders with links to each other'
    mkdir one two
    ln -s ../two one/two
    ln -s ../one two/one
    refused
    place 'a circle elsewhere'
    ln -s ../elsewhere p
    ln -s . ../elsewhere/me
    refused
}

# Links to elsewhere, and to nowhere.
followed() {
    place 'a link to a folder elsewhere'
    printf 'syntax = "proto3"; import "p/b.proto";' >a.proto
    ln -s ../elsewhere p
    ends 0 '' "$imported"
    place 'a link to a file elsewhere'
    printf 'syntax = "proto3"; import "p/b.proto";' >a.proto
    mkdir p
    ln -s ../../elsewhere/b.proto p/b.proto
    ends 0 '' "$imported"
    place 'two links to one folder elsewhere'
    ln -s ../elsewhere p
    ln -s ../elsewhere q
    rm a.proto
    ends 1 'q/b.proto:1:39: NameTwice' ''
    place 'a folder and a link to it beside it'
    mkdir p
    rm a.proto
    mv ../elsewhere/b.proto p
    ln -s p q
    ends 1 'q/b.proto:1:39: NameTwice' ''
    place 'links to nowhere'
    ln -s nowhere lost
    ln -s itself itself
    ln -s a.proto/b behind_a_file
    ends 0 '' "$alone"
    place 'a source that is a link to nowhere'
    ln -s nowhere lost.proto
    refused
    place 'a source that is a link to itself'
    ln -s itself.proto itself.proto
    refused
}

# What would wait for whoever writes to it, or never end.
devices() {
    place 'a pipe that is no source'
    mkfifo pipe
    ends 0 '' "$alone"
    place 'a source that is a pipe'
    rm a.proto
    mkfifo a.proto
    refused
    place 'a source that is a link to a pipe'
    mkfifo ../pipe
    ln -s ../pipe b.proto
    refused
    place 'a source that is a device'
    ln -s /dev/zero b.proto
    refused
}

# What an ordinary user may not read.
closed() {
    place 'a source that may not be read'
    touch b.proto
    chmod 000 b.proto
    refused
    place 'a file that may not be read, and is no source'
    touch b.txt
    chmod 000 b.txt
    ends 0 '' "$alone"
    place 'a folder that may not be listed'
    mkdir sub
    chmod 000 sub
    refused
    chmod 755 sub
    place 'a folder whose entries may not be looked at'
    mkdir -p sub/sub
    chmod 444 sub
    refused
    chmod 755 sub
}

circles
followed
devices
if become_ordinary 'what may not be read was not tried'; then
    if [ "${#as_user[@]}" != 0 ]; then
        circles
        followed
        devices
    fi
    closed
fi
[ "$failures" = 0 ]
