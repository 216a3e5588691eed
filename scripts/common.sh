# Read by the scripts at the top: how they end, and the folder in which they work.
# Exit statuses of their own: 64 the words are wrong, 65 what was read isn't what they take, 66 a file can't be read,
# 70 the program can't be run, 73 a file can't be made, 74 writing failed.
# shellcheck shell=sh

self=$(basename "$0")
scratch=''

# STATUS TEXT: one sentence on standard error, and the end.
fail() {
    code=$1
    shift
    echo "$self: $*" >&2
    exit "$code"
}

running=''

clean() {
    if [ -n "$running" ]; then
        kill "$running" 2>/dev/null
        wait "$running" 2>/dev/null
    fi
    [ -z "$scratch" ] || rm -rf "$scratch"
}

# What a script still has to say after an interrupt; one that has something says it by another `last_words`.
last_words() { :; }

# After an interrupt the script ends by that signal, as whoever started it expects.
ended_by() {
    trap - EXIT "$1"
    last_words
    clean
    kill -s "$1" $$
    exit 1
}

trap clean EXIT
trap 'ended_by HUP' HUP
trap 'ended_by INT' INT
trap 'ended_by TERM' TERM

make_scratch() {
    scratch=$(mktemp -d 2>/dev/null) || fail 74 "there is no room for a folder in ${TMPDIR:-/tmp}"
}

# [FILE]: the file, or standard input where none is named, in $scratch/input, without the CR before a line's end.
read_input() {
    [ ! -d "${1:-}" ] || fail 66 "$1 is a folder"
    [ -z "${1:-}" ] || [ -f "$1" ] || [ -p "$1" ] || fail 66 "there is no file $1"
    if [ -n "${1:-}" ]; then
        [ -r "$1" ] || fail 66 "the file $1 can't be read"
        exec <"$1"
    fi
    no_room="there is no room for the input in ${TMPDIR:-/tmp}"
    if ! cat >"$scratch/whole" 2>"$scratch/error"; then
        reason=$(sed 's/.*: //' "$scratch/error")
        case $(cat "$scratch/error") in
            '' | *'write error'* | *'standard output'*) fail 74 "$no_room" ;;
        esac
        fail 74 "the input can't be read: $reason"
    fi
    tr -d '\r' <"$scratch/whole" >"$scratch/input" 2>/dev/null || fail 74 "$no_room"
    rm -f "$scratch/whole"
}

# FILE: writes it to standard output, whole, or says that this failed.
write_out() {
    cat "$1" 2>/dev/null && return
    code=$?
    [ "$code" -le 128 ] || exit "$code"
    fail 74 "writing failed"
}
