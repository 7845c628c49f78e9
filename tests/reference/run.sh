#!/usr/bin/env bash
# Tests the reference model against the papers, and the engine against the model: the same cases each time, through the C call, the line program and the
# console.
#
#     tests/reference/run.sh [ARCHIVE] [CODES] [CONSOLE]
set -eu
. "$(dirname "$0")/build.sh"

build
"$out/self" || fail "the model is wrong"
"$out/differ" fixed "$out" "$codes" "$console" || fail "the engine and the model differ, or not all was covered; input, answers and expected answers are in $out"
