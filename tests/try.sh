#!/usr/bin/env bash
# Read by the other scripts of this folder: `try NAME COMMAND..` runs a test and prints its line, and `all_passed`, at the
# end, says whether none failed. The logs are in target/tests/.
logs=target/tests
failed=0
mkdir -p "$logs"
exec 3>&2

# Runs one test and prints its line, with the last line of its log.
try() { # NAME COMMAND..
    local name=$1
    shift
    if "$@" >"$logs/$name.log" 2>&1; then
        echo "ok $name$(tail -n 1 "$logs/$name.log" | sed 's/^./: &/')"
    else
        echo "FAILED $name"
        tail -n 20 "$logs/$name.log" | cut -c 1-2000
        failed=1
    fi
}

# What a command says on standard error while it works is seen at once and not logged: `try NAME aloud COMMAND..`.
aloud() { "$@" 2>&3; }

all_passed() { [ "$failed" -eq 0 ]; }
