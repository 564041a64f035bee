# The part that tests in sh share. It makes the folder $room, which is removed at the end, and counts failures in $bad.
# A test that needs a program says `left_out` where there is none: that fails where PTEXT_GATE is `all`, which
# tests/all.sh sets in continuous integration, for which .ci/run installs all programs. `needed` is for the few programs
# without which `make test` fails on any machine (PTEXT_GATE is `yes` or `all`).
count=0
bad=0
child=
room=$(mktemp -d)

# Ends a test that `follow` started, and all that it started.
stop_child() {
    [ -z "$child" ] || kill -TERM "-$child" 2>/dev/null || true
    [ -z "$child" ] || wait "$child" || true
    child=
}

trap 'stop_child; rm -rf "$room"' EXIT
trap 'exit 143' HUP INT TERM

# left_out WHAT: names a test that cannot be run here
left_out() {
    echo "left out: $1"
    if [ "${PTEXT_GATE:-}" = all ]; then
        bad=$((bad + 1))
    fi
}

# needed WHAT: the same; it also fails in `make test`
needed() {
    echo "left out: $1"
    if [ "${PTEXT_GATE:-}" ]; then
        bad=$((bad + 1))
    fi
}

# has PROGRAM..: whether all of these programs are in PATH
has() {
    for program_needed; do
        command -v "$program_needed" >/dev/null || return 1
    done
}

# is NAME WANTED FOUND: that the two are the same
is() {
    count=$((count + 1))
    [ "$2" = "$3" ] && return
    bad=$((bad + 1))
    printf 'FAILED: %s\nwanted: %s\nfound: %s\n' "$1" "$2" "$3"
}

# follow LOG WORDS..: runs a command, shows its output, and adds it to the file LOG. The status is that of the command.
# The command and all that it starts end if this script is ended.
follow() {
    rm -f "$room/status"
    setsid sh -c 'status=$1 log=$2; shift 2; { "$@"; echo $? >"$status"; } 2>&1 | tee -a "$log"' sh "$room/status" "$@" &
    child=$!
    wait "$child" || true
    child=
    return "$(cat "$room/status" 2>/dev/null || echo 1)"
}
