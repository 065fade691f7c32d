# left FOLDER: the processes that work in this folder or below it, and go on doing so for three seconds: a line each, with their words.
left() {
    local process found turn
    for ((turn = 0; turn < 30; turn++)); do
        found=
        for process in /proc/[0-9]*; do
            case $(readlink "$process/cwd" 2>/dev/null)/ in
            "$1"/*) found+="${process#/proc/}: $(tr '\0' ' ' 2>/dev/null <"$process/cmdline")"$'\n' ;;
            esac
        done
        [ -n "$found" ] || return
        sleep 0.1
    done
    printf '%s' "$found"
}
