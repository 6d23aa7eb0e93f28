# The parts of .ci/c_library, .ci/javascript and .ci/packages: how they are tried, named and counted. These scripts source this file after
# they have set
# `room`, a folder for what a part writes.

passed=0
failed=0
# The seconds after which a command has failed.
limit=120

# pass and fail NAME: count a part, and name one that failed, with what it said.
pass() { passed=$((passed + 1)); }
fail() {
    failed=$((failed + 1))
    echo "$1"
    tail -n 20 "$room/said"
}

# try NAME COMMAND ..: a command that must have status 0.
try() {
    local name=$1
    shift
    if timeout "$limit" "$@" > "$room/said" 2>&1; then pass; else fail "$name: status not 0:"; fi
}

# refuses NAME COMMAND ..: a command that must not have status 0.
refuses() {
    local name=$1
    shift
    if timeout "$limit" "$@" > "$room/said" 2>&1; then fail "$name: status 0:"; else pass; fi
}

# same NAME EXPECTED ACTUAL: two files that must be equal.
same() {
    if diff "$2" "$3" > "$room/said" 2>&1; then pass; else fail "$1: what differs, < expected and > found:"; fi
}

# writes NAME EXPECTED COMMAND ..: a command that must have status 0, and write what a file holds and no error.
writes() {
    local name=$1 expected=$2
    shift 2
    if timeout "$limit" "$@" > "$room/output" 2> "$room/said" && [ ! -s "$room/said" ] &&
        diff "$expected" "$room/output" > "$room/said"; then
        pass
    else
        fail "$name: what differs, < expected and > found, or the error:"
    fi
}

# has TOOL: whether it is there. One that is left out is named once.
has() {
    command -v "$1" > "$room/said" 2>&1 && return
    [ -e "$room/missing_$1" ] || echo "$1 is missing, and its parts are left out"
    : > "$room/missing_$1"
    return 1
}

# needs TOOL: whether it is there; one that is missing is a failure.
needs() {
    command -v "$1" > "$room/said" 2>&1 && return
    fail "$1 is missing, and is needed"
    return 1
}
