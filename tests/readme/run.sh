#!/usr/bin/env bash
# Holds the examples of README.md to what happens: its C program is compiled, and each line `$ COMMAND` is run where that program, include/ and target/ are. What
# the command writes has to be the lines below it.
#
#     tests/readme/run.sh
#
# It needs the archive and the line program in target/ ('make lib codes'). The examples of the console are held to it by tests/console/documents.sh.
set -eu

fail() {
    echo "tests/readme/run.sh: $*" >&2
    exit 1
}

root=$(cd "$(dirname "$0")/../.." && pwd)
[ -f "$root/target/staticlib/libgps_chips.a" ] || fail "no archive ('make lib' writes it)"
[ -x "$root/target/bin/codes" ] || fail "no line program ('make codes' builds it)"

here=$(mktemp -d)
trap 'rm -rf "$here"' EXIT
ln -s "$root/include" "$root/target" "$here/"
cd "$here"

sed -n '/^```c$/,/^```$/ { /^```/d; p }' "$root/README.md" >week.c
[ -s week.c ] || fail "README.md has no C program"
# its commands call the compiler cc
cc() { command ${CC:-cc} -std=c99 -Wall -Wextra -Werror "$@"; }

# run COMMAND EXPECTED
run() {
    eval "$1" >written 2>&1 || fail "status $? of: $1"$'\n'"$(cat written)"
    printf '%s' "$2" | cmp -s - written || fail "README.md shows of: $1"$'\n'"$2but it writes"$'\n'"$(cat written)"
    commands=$((commands + 1))
}

commands=0 command='' expected=''
while IFS= read -r line; do
    case $line in
        '    $ '*) command=${line#'    $ '} expected='' ;;
        '    '*) [ -z "$command" ] || expected+=${line#'    '}$'\n' ;;
        *) if [ -n "$command" ]; then
            run "$command" "$expected"
            command=''
        fi ;;
    esac
done <"$root/README.md"
[ $commands -ge 2 ] || fail "expected at least two commands in README.md, found $commands"
echo "readme: its C program compiles, and $commands commands write what it shows"
