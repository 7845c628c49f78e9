#!/usr/bin/env bash
# Compares the engine with the reference model in rounds, each with another seed, until it is stopped (Ctrl-C or TERM) or a limit is reached.
#
#     tests/reference/soak.sh [--seed N | --from N] [--rounds N] [--seconds N] [ARCHIVE] [CODES] [CONSOLE]
#
# --seed N repeats the round of that seed alone; --from N begins with it and goes on. Without either the seeds begin at the present second.
set -eu

from=$(date +%s)
rounds=0
seconds=0

# number OPTION VALUE: the value, if it is one.
number() {
    case ${2:-} in
    '' | *[!0-9]*) echo "$0: $1 wants a number, got '${2:-}'" >&2 && exit 2 ;;
    *) echo "$2" ;;
    esac
}

while [ $# -gt 0 ]; do
    case $1 in
    --seed)
        from=$(number "$@")
        rounds=1
        ;;
    --from) from=$(number "$@") ;;
    --rounds) rounds=$(number "$@") ;;
    --seconds) seconds=$(number "$@") ;;
    --*) echo "$0: no option $1" >&2 && exit 2 ;;
    *) break ;;
    esac
    shift 2
done
. "$(dirname "$0")/build.sh"

build
# A soak takes long, and the programs may be built anew meanwhile: it keeps those that it began with.
mkdir -p "$out/soak"
cp "$codes" "$out/soak/codes"
cp "$console" "$out/soak/console"
echo "comparing with the model, round after round, from seed $from on; Ctrl-C stops it"
exec "$out/differ" soak "$out/soak" "$out/soak/codes" "$out/soak/console" "$from" "$rounds" "$seconds"
