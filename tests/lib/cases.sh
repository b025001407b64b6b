# shellcheck shell=bash
# What the checks in bash share: they run the program, compare, and count their cases.
set -u
: "${TAPC:?run the checks by tests/run}"
cases=0
wrong=0
folder=$(mktemp -d) || exit 1
trap 'rm -rf "$folder"' EXIT

# Runs the program with the words; it is to end with the status and to write the file.
writes() { # writes STATUS FILE WORD..
    local status=$1 wanted=$2 got
    shift 2
    "$TAPC" "$@" >"$folder/written" 2>"$folder/errors"
    got=$?
    cases=$((cases + 1))
    if [ "$got" -eq "$status" ] && cmp -s "$folder/written" "$wanted" && [ ! -s "$folder/errors" ]; then
        return 0
    fi
    wrong=$((wrong + 1))
    echo "tapc $*: status $got, wanted $status"
    diff "$wanted" "$folder/written" | head -n 20
    head -n 5 "$folder/errors"
}

# The same, with the lines that are to be written.
says() { # says STATUS LINES WORD..
    local status=$1
    printf '%s\n' "$2" >"$folder/wanted"
    shift 2
    writes "$status" "$folder/wanted" "$@"
}

# The text is accepted: the first line says so, and then come those of messages and those of processes, of which there is
# one at least.
accepts() { # accepts TEXT
    local got
    "$TAPC" check "$1" >"$folder/written" 2>"$folder/errors"
    got=$?
    cases=$((cases + 1))
    if [ "$got" -eq 0 ] && [ "$(head -n 1 "$folder/written")" = accepted ] && [ ! -s "$folder/errors" ] &&
        [ "$(wc -l <"$folder/written")" -gt 1 ] &&
        ! tail -n +2 "$folder/written" |
            grep -qvE '^(message [A-Za-z][A-Za-z0-9_]*|process [A-Za-z][A-Za-z0-9_]* (0|[1-9][0-9]*)) (0|[1-9][0-9]*)$'; then
        return 0
    fi
    wrong=$((wrong + 1))
    echo "tapc check $1: status $got, and it is to be accepted"
    head -n 5 "$folder/written" "$folder/errors"
}

# Fails where the shell command before it failed.
holds() { # holds STATUS WHAT
    cases=$((cases + 1))
    [ "$1" -eq 0 ] && return
    wrong=$((wrong + 1))
    echo "not so: $2"
}

finish() {
    [ "$cases" -gt 0 ] || { echo 'no cases were found'; exit 1; }
    echo "$cases cases"
    [ "$wrong" -eq 0 ] || exit 1
    exit 0
}
