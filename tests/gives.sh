# shellcheck shell=sh disable=SC2154
# Functions of the tests of the shell front, read by tests/run and tests/build; room is a temporary folder.

wrong() { echo "${0##*/tests/}: $*" >&2; exit 1; }

# Runs a command and holds its status, its standard output and its standard error to what is expected.
gives() { # WHAT STATUS OUTPUT-FILE ERROR-FILE COMMAND..
    what=$1 status=$2 output=$3 error=$4
    shift 4
    got=0
    "$@" >"$room/stdout" 2>"$room/stderr" || got=$?
    [ "$got" = "$status" ] || wrong "$what: status $got and not $status: $(cat "$room/stderr")"
    cmp -s "$room/stdout" "$output" || wrong "$what: standard output is not what it must be"
    cmp -s "$room/stderr" "$error" || wrong "$what: standard error is not '$(cat "$error")': $(cat "$room/stderr")"
}

# Runs a command that must write nothing on standard output, and one sentence on standard error.
says() { # WHAT STATUS SENTENCE COMMAND..
    printf 'vsp: %s\n' "$3" >"$room/sentence"
    what=$1 status=$2
    shift 3
    gives "$what" "$status" /dev/null "$room/sentence" "$@"
}

# Runs a wrong call, which is answered by a sentence on what is wrong and a hint.
misses() { # WHAT SENTENCE COMMAND..
    printf 'vsp: %s\nvsp: ./vsp help says how it is called\n' "$2" >"$room/sentence"
    what=$1
    shift 2
    gives "$what" 2 /dev/null "$room/sentence" "$@"
}

# Runs a command as a user whom permissions bind.
bound() {
    if [ "$(id -u)" = 0 ]; then setpriv --reuid=65534 --regid=65534 --clear-groups "$@"; else "$@"; fi
}

# Runs a command whose standard output is a terminal, and hands on what it writes there.
on_terminal() { # COMMAND..
    python3 -c '
import os, pty, subprocess, sys
ours, theirs = pty.openpty()
status = subprocess.run(sys.argv[1:], stdout=theirs).returncode
os.write(theirs, b"\0")
shown = b""
while not shown.endswith(b"\0"):
    shown += os.read(ours, 65536)
sys.stdout.buffer.write(shown[:-1])
sys.exit(status)' "$@"
}
