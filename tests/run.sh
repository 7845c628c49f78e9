#!/usr/bin/env bash
# Everything: what needs no proof, then `rt ci`, which proves every crate, tries every wrong answer that has to be refused and runs every program, then the
# archive and the programs by themselves, in this order. What rt ci said is printed last: its last line, the verdict, is the last.
set -eu

cd "$(dirname "$0")/.."
mkdir -p target
verdict=target/rt-ci.log

tests/standards/run.sh
tests/console/documents.sh

status=0
rt ci >"$verdict" 2>&1 || status=$?

# Nothing to build and test where rt ci fails: its own verdict says why. An edit that could not be tried counts for nothing, and so it fails here too.
if [ $status = 0 ]; then
    if grep -E '^rt: ok.*[1-9][0-9]* bad|^rt: note: bad must-fail edits' "$verdict" >&2; then
        echo 'tests/run.sh: an edit could not be tried' >&2
        status=1
    fi
    make --no-print-directory lib codes console
    tests/host/run.sh
    tests/readme/run.sh
    tests/reference/run.sh
    tests/install/run.sh
    tests/certificate/run.sh
fi

cat "$verdict"
exit $status
