#!/usr/bin/env bash
# Tests the console where a proof doesn't reach: how it reads and writes, and whom it greets. What it answers is proved, and rt holds it to
# crates/console/stdout.
#
#     tests/console/run.sh [PROGRAM]
set -eu
name=console
. "$(dirname "$0")/../programs.sh"

# A line far longer than is kept is an error, and the next one is read as usual.
check_long_line() {
    printf 'error\nok 0 1\n' >"$out/both"
    { printf 'reading 2 ' && head -c 5000000 /dev/zero | tr '\0' 0 && printf '1\nreading 2 1\n'; } |
        answers "a number of 5,000,001 digits, and a line behind it" "$out/both"
    echo "a number of 5,000,001 digits: an error, and the line behind it is answered"
}

# 100,000 commands, in seconds: short ones, and some whose answers are the longest that there are.
check_many() {
    local start=$SECONDS
    awk 'BEGIN {
        print "open 2 1"
        for (i = 1; i < 99900; i++) if (i % 3 == 0) printf "seek . %d000000\n", i * 61; else print (i % 3 == 1 ? "step ." : "window . 40 64 24")
        for (; i < 100000; i++) print "window . 65536 131072 65536"
    }' >"$out/many"
    "$program" <"$out/many" >"$out/stdout"
    [ "$(wc -l <"$out/stdout")" = 100000 ] || fail "100,000 commands: $(wc -l <"$out/stdout") answers"
    ! grep -qv '^ok ' "$out/stdout" || fail "100,000 commands: $(grep -vm1 '^ok ' "$out/stdout")"
    echo "100,000 commands: as many answers, $((SECONDS - start)) s"
}

# What an answer prints as a channel is taken as one, and gives the same answers as `.`.
check_channels() {
    { echo 'open 1 1' && grep -aE '^(open [0-9]+|seek \.|step \.|window \. [0-9]+ [0-9]+)( [0-9]+)?$' "$input"; } >"$out/calls"
    "$program" <"$out/calls" >"$out/by_dot"
    # each call again, with the channel that the answer before it printed
    paste -d '\n' "$out/calls" "$out/by_dot" | awk '
        NR % 2 == 1 { call = $0; sub(/ \. ?/, " " channel " ", call); sub(/ $/, "", call); print call; next }
        $1 == "ok" { for (i = 2; i <= NF; i++) if ($i ~ /\//) channel = $i }' >"$out/calls_in_full"
    answers "channels in full" "$out/by_dot" <"$out/calls_in_full"
    echo "channels in full: $(wc -l <"$out/calls") calls, the same answers as with the channel left out"
}

# Who types at a terminal is told where to begin; input from elsewhere gets answers alone.
check_greeting() {
    command -v script >/dev/null || { echo "the greeting: not tested, there is no script(1)"; return; }
    printf 'help\n\004' | script -qec "$program" /dev/null >"$out/terminal" 2>&1 || fail "a terminal: status $?"
    grep -q 'help lists them' "$out/terminal" || fail "a terminal: expected a greeting, got: $(head -3 "$out/terminal")"
    grep -q 'REGISTER.PHASE.CYCLES' "$out/terminal" || fail "a terminal: expected the commands, got: $(cat "$out/terminal")"
    echo "a terminal: greeted, and told the commands"
}

check_chunks 1 2 7 100 1000 1023 1024 1025 5000
check_junk error
check_unfinished 'reading 2 1' 'ok 0 1'
check_long_line
check_many
check_channels
check_greeting
check_prompt_answer 'open 2 1' 'ok 2/1/0/0/137438953471/584.0.0.R/1364.0.0.R/2341.0.0.R/1364.0.0.R'
check_read_errors
check_interrupted
check_write_errors 'open 2 1'
check_arguments --help "open 2 1" -
