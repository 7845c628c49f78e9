#!/usr/bin/env bash
# Holds the examples of the documents to what the console answers: each block that is fenced with ```console, a line `> COMMAND` and its answer, stands as it
# is in crates/console/stdin and stdout, to which rt holds the program. It needs neither.
set -eu

fail() {
    echo "tests/console/documents.sh: $*" >&2
    exit 1
}

cd "$(dirname "$0")/../.."
documents=(README.md docs/CONSOLE.md)

# Every command with its answer, up to `help`, whose answer has many lines.
count=$(grep -anm1 '^help$' crates/console/stdin | cut -d: -f1)
session=$(paste -d '\n' <(head -n $((count - 1)) crates/console/stdin | sed 's/^/> /') <(head -n $((count - 1)) crates/console/stdout) | tr -d '\0')

checked=0
for document in "${documents[@]}"; do
    block= inside=false
    while IFS= read -r line; do
        case $inside$line in
            'false```console') inside=true block= ;;
            'true```')
                inside=false checked=$((checked + 1))
                [ -n "$block" ] || fail "$document: an empty example"
                [[ $session == *"$block"* ]] || fail "$document: not what the console answers:"$'\n'"$block"
                ;;
            true*) block+=$line$'\n' ;;
        esac
    done <"$document"
    [ $inside = false ] || fail "$document: an example that has no end"
done
[ $checked -ge 2 ] || fail "expected at least two examples, found $checked"
echo "console: $checked examples of the documents are what it answers"
