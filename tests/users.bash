# Read by the scripts that run the program as an ordinary user, too, since root may read and write everything. The program stands in
# `folder`, which all may enter; "${as_user[@]}" runs a command as `user`.
. tests/common.bash
find_program
umask 022
chmod 755 "$folder"
cp "$program" "$folder/program" || exit 2
program=$folder/program
user=$(id -u)
as_user=()

# become_ordinary PART: from here on `user` is not root; where this script's user is, setpriv makes another. False where it can't, and
# this part is not tried.
become_ordinary() {
    local words=(setpriv --reuid=65534 --regid=65534 --clear-groups)
    [ "$user" = 0 ] || return 0
    "${words[@]}" test -x "$program" 2>/dev/null || untried 'way to run it as an ordinary user (setpriv)' "$1" || return
    user=65534
    as_user=("${words[@]}")
}
