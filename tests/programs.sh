# For the tests of a program that answers lines: how it reads standard input and writes standard output, which no proof covers. To be sourced, with `name` set to
# the program's name and $1 to the program, if it is another than target/bin/NAME. What is written goes to target/NAME.

fail() {
    echo "$0: $*" >&2
    exit 1
}

root=$(cd "$(dirname "$0")/../.." && pwd)
program=${1:-$root/target/bin/$name}
[ -x "$program" ] || fail "no program at $program ('make $name' builds it)"
program=$(realpath "$program")
cd "$root"

out=$root/target/$name
mkdir -p "$out"
input=crates/$name/stdin
expected=crates/$name/stdout

# answers NAME EXPECTED: what was piped in is answered with that file, and nothing is said on standard error.
answers() {
    "$program" >"$out/stdout" 2>"$out/stderr" || fail "$1: status $?"
    cmp -s "$2" "$out/stdout" || fail "$1: expected the $(wc -c <"$2") bytes of $2, got $(wc -c <"$out/stdout") others in $out/stdout"
    [ ! -s "$out/stderr" ] || fail "$1: expected nothing on standard error, got: $(cat "$out/stderr")"
}

# says NAME WORDS: the words are on standard error.
says() {
    grep -qF -- "$2" "$out/stderr" || fail "$1: expected '$2' on standard error, got: $(cat "$out/stderr")"
}

# check_chunks SIZE..: the same lines, however they are cut.
check_chunks() {
    local size
    answers "all lines at once" "$expected" <"$input"
    for size in "$@"; do
        dd if="$input" bs="$size" status=none | answers "lines in pieces of $size bytes" "$expected"
    done
    echo "lines cut into pieces of $1 to $size bytes: the same answers"
}

# check_junk ANSWER: no line gets no answer; an empty one, and a long one with its newline or without, get this one.
check_junk() {
    : >"$out/empty"
    echo "$1" >"$out/junk"
    answers "empty input" "$out/empty" <"$out/empty"
    echo | answers "an empty line" "$out/junk"
    head -c 5000000 /dev/zero | answers "a line of 5,000,000 bytes without its newline" "$out/junk"
    { head -c 5000000 /dev/zero && echo; } | answers "a line of 5,000,000 bytes" "$out/junk"
    echo "no line, an empty one and long ones: one answer to each line"
}

# check_unfinished LINE ANSWER: a last line lacking its newline.
check_unfinished() {
    echo "$2" >"$out/unfinished"
    printf '%s' "$1" | answers "a last line lacking its newline" "$out/unfinished"
    echo "a last line lacking its newline: $2"
}

# check_prompt_answer LINE ANSWER: who types a line sees its answer before the input ends.
check_prompt_answer() {
    local answer
    coproc "$program"
    echo "$1" >&"${COPROC[1]}"
    read -r -t 10 answer <&"${COPROC[0]}" || fail "a line by hand: no answer while the input is open"
    [ "$answer" = "$2" ] || fail "a line by hand: expected $2, got $answer"
    eval "exec ${COPROC[1]}>&-"
    wait "$COPROC_PID" || fail "a line by hand: status $?"
    echo "a line by hand: answered while the input is open"
}

# A read that fails is no end of the input: it is told, and an unfinished line gets no answer.
check_read_errors() {
    "$program" <. >"$out/stdout" 2>"$out/stderr"
    says "a folder as input" "$name: standard input: "
    [ ! -s "$out/stdout" ] || fail "a folder as input: expected no answer, got $(cat "$out/stdout")"
    "$program" <&- >"$out/stdout" 2>"$out/stderr"
    says "closed input" "$name: standard input: "
    [ ! -s "$out/stdout" ] || fail "closed input: expected no answer, got $(cat "$out/stdout")"
    echo "input that can't be read: told on standard error"
}

# check_write_errors LINE: a write that fails is told, and nothing more is read.
check_write_errors() {
    echo "$1" | "$program" >&- 2>"$out/stderr"
    says "closed output" "$name: standard output: "
    printf '%s' "$1" | "$program" >&- 2>"$out/stderr"
    says "closed output, an unfinished line" "$name: standard output: "
    if [ -w /dev/full ]; then
        { yes "$1" 2>/dev/null || true; } | timeout 60 "$program" >/dev/full 2>"$out/stderr" || fail "a full disk: status $?, expected it to stop"
        says "a full disk" "$name: standard output: "
        echo "output that can't be written: told on standard error, and it stops"
    else
        echo "output that can't be written: told on standard error; a full disk is not tested, there is no /dev/full"
    fi
}

# A read or a write that a signal interrupted is made again. The program handles no signal, so a library stands in for the system's calls.
check_interrupted() {
    local library=$out/interrupted.so
    if ! command -v "${CC:-cc}" >/dev/null; then
        echo "interrupted reads and writes: not tested, there is no C compiler"
        return
    fi
    "${CC:-cc}" -shared -fPIC -O2 -Wall -Wextra -Werror tests/interrupted.c -o "$library"
    rm -f "$out/interrupted"
    INTERRUPTED=$out/interrupted LD_PRELOAD=$library "$program" <"$input" >"$out/stdout" 2>"$out/stderr" || fail "interrupted calls: status $?"
    [ -e "$out/interrupted" ] || fail "interrupted calls: none was interrupted"
    cmp -s "$expected" "$out/stdout" || fail "interrupted calls: expected the bytes of $expected, got others in $out/stdout"
    [ ! -s "$out/stderr" ] || fail "interrupted calls: expected nothing on standard error, got: $(cat "$out/stderr")"
    echo "every other read and write interrupted: the same answers"
}

# check_arguments ARGUMENTS..: arguments are not taken for input: nothing is read, and it says what it does.
check_arguments() {
    local arguments
    for arguments in "$@"; do
        timeout 10 "$program" $arguments <"$input" >"$out/stdout" 2>"$out/stderr" || fail "$name $arguments: status $?"
        says "$name $arguments" "$name takes no arguments"
        [ ! -s "$out/stdout" ] || fail "$name $arguments: expected no answer, got $(cat "$out/stdout")"
    done
    echo "arguments: told that it takes none"
}
