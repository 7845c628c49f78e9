#!/usr/bin/env bash
# Tests the line program where a proof doesn't reach: how it reads and writes. What it answers is proved, and rt holds it to crates/codes/stdout.
#
#     tests/codes/run.sh [PROGRAM]
set -eu
name=codes
. "$(dirname "$0")/../programs.sh"

# More replies than a buffer holds, longer than their lines.
check_many() {
    local count=200000
    awk -v count=$count 'BEGIN { while (count--) print "2 1 0 64\n" }' >"$out/many"
    awk -v count=$count -v chips="$(echo 2 1 0 64 | "$program")" 'BEGIN { while (count--) print chips "\nrefused 9" }' >"$out/replies"
    answers "$((2 * count)) lines" "$out/replies" <"$out/many"
    echo "$((2 * count)) lines: as many replies, in order"
}

check_chunks 1 2 7 10 55 56 57 100 1000
check_junk 'refused 9'
check_unfinished '2 1 0 12' 'refused 9'
check_many
check_prompt_answer '2 1 0 12' '2 1 0 100100100100'
check_read_errors
check_interrupted
check_write_errors '2 1 0 12'
check_arguments --help "2 1 0 12" "2 1"
