#!/usr/bin/env bash
# Tests the C side: the archive, its header, and the host program.
#
#     tests/host/run.sh [ARCHIVE]
#
# ARCHIVE is target/staticlib/libgps_chips.a if it isn't given. All that is built goes to target/host.
set -eu

fail() {
    echo "tests/host/run.sh: $*" >&2
    exit 1
}

root=$(cd "$(dirname "$0")/../.." && pwd)
archive=${1:-$root/target/staticlib/libgps_chips.a}
[ -f "$archive" ] || fail "no archive at $archive ('make lib' writes it)"
archive=$(realpath "$archive")
cd "$root"

out=$root/target/host
mkdir -p "$out"
read -ra cc <<<"${CC:-cc}"
read -ra cxx <<<"${CXX:-c++}"
strict=(-std=c99 -Wall -Wextra -Werror -Iinclude)
sanitized=(-g -fsanitize=address,undefined -fno-sanitize-recover=all)

# ---------------------------------------------------------------- archive

code_and_constants=131072 # bytes that the archive may have of them

# The header promises one function that needs no other and keeps no state.
check_archive() {
    local undefined globals sizes text data
    undefined=$(nm -u "$archive" | awk 'NF > 1 && $(NF - 1) ~ /^[Uvw]$/ { print $NF }' | sort -u)
    [ -z "$undefined" ] || fail "the archive has undefined symbols:" $undefined
    globals=$(nm -g --defined-only "$archive" | awk 'NF == 3 { print $2, $3 }')
    [ "$globals" = "T gps_chips" ] || fail "expected one global symbol, T gps_chips, got:" $globals
    sizes=$(size "$archive" | awk 'NR > 1 { text += $1; data += $2 + $3 } END { print text + 0, data + 0 }')
    text=${sizes% *} data=${sizes#* }
    [ "$data" = 0 ] || fail "expected no writable data in the archive, got $data bytes"
    [ "$text" -gt 0 ] && [ "$text" -le $code_and_constants ] \
        || fail "expected at most $code_and_constants bytes of code and constants in the archive, got $text"
    echo "archive: one global symbol, gps_chips; none undefined; $text bytes of code and constants, $code_and_constants allowed; no writable data"
}

# ----------------------------------------------------------- machine code

# runs_everywhere OBJECT: whether all of its machine code is for every x86-64 processor. It is read back by the assembler, told of a processor with nothing
# above the first of them; the assembler's tables say which instruction that one lacks. For it each jump goes to itself, and padding has one prefix at most.
# What it says of the rest is left in machine-code.log.
runs_everywhere() {
    objdump -d --no-show-raw-insn --no-addresses "$1" \
        | sed -n 's/^\(\t[a-z]* *\)<.*/\1./; s/ *# .*//; s/^\t\(data16 \)*/\t/p' >"$out/machine-code.s"
    [ -s "$out/machine-code.s" ] && as -march=generic64 -o /dev/null "$out/machine-code.s" >"$out/machine-code.log" 2>&1
}

# A jump, a call, SSE2 and padding.
everywhere='pxor %xmm0, %xmm0; lea table(%rip), %rax; jmp *%rax; nopw 0x0(%rax,%rax); call table; jne table; cmove %rax, %rbx; table: ret'

# An instruction of each later extension.
above=('popcnt %eax, %eax' 'pextrd $1, %xmm0, %eax' 'pblendw $3, %xmm1, %xmm0' 'pextrw $1, %xmm0, (%rax)' 'pshufb %xmm1, %xmm0' 'haddps %xmm1, %xmm0'
    'crc32b %al, %ebx' 'cmpxchg16b (%rax)' 'movbe (%rax), %ebx' 'lzcnt %eax, %eax' 'tzcnt %eax, %eax' 'andn %eax, %ebx, %ecx' 'shlx %eax, %ebx, %ecx'
    'vpxor %xmm1, %xmm1, %xmm0' 'vpaddb %ymm1, %ymm1, %ymm0' 'vpaddb %zmm1, %zmm1, %zmm0' 'pclmulqdq $0, %xmm1, %xmm0' 'aesenc %xmm1, %xmm0')

# assembled TEXT: as an object file, whatever the processor.
assembled() {
    printf '%s\n' "$1" | as -o "$out/machine-code.o" - || fail "can't assemble $1"
}

check_machine_code() {
    local instruction
    assembled "$everywhere"
    runs_everywhere "$out/machine-code.o" || fail "machine code of every x86-64 processor is refused: $(cat "$out/machine-code.log")"
    for instruction in "${above[@]}"; do
        assembled "$everywhere; $instruction"
        ! runs_everywhere "$out/machine-code.o" && [ "$(grep -c 'Error: ' "$out/machine-code.log")" = 1 ] \
            || fail "not found in machine code: $instruction"
    done
    runs_everywhere "$archive" || fail "the archive has what not every x86-64 processor can run: $(sed -n 's/.*Error: //p' "$out/machine-code.log" | sort -u)"
    echo "machine code: $(wc -l <"$out/machine-code.s") instructions, each of every x86-64 processor; ${#above[@]} others were planted and found"
}

# ----------------------------------------------------------------- header

check_header() {
    local languages printed
    "${cc[@]}" -std=c99 -pedantic -Wall -Wextra -Werror -x c -fsyntax-only include/gps_chips.h \
        || fail "the header doesn't compile as C99"

    tests/host/example.sh >"$out/example.c"
    "${cc[@]}" "${strict[@]}" -pedantic "$out/example.c" "$archive" -o "$out/example" \
        || fail "the example in the header doesn't compile"
    printed=$("$out/example") || fail "the example in the header ended with status $?"
    [ "$printed" = 1100100000 ] || fail "the example in the header: expected 1100100000, got $printed"

    if command -v "${cxx[0]}" >/dev/null; then
        "${cxx[@]}" -pedantic -Wall -Wextra -Werror -Iinclude -x c++ "$out/example.c" -x none "$archive" \
            -o "$out/example_cxx" || fail "the header doesn't compile or link as C++"
        printed=$("$out/example_cxx") || fail "the example as C++ ended with status $?"
        [ "$printed" = 1100100000 ] || fail "the example as C++: expected 1100100000, got $printed"
        languages="C99 and C++"
    else
        languages="C99 (no C++ compiler is installed)"
    fi
    echo "header: compiles as $languages; its example prints the right chips"
}

# ------------------------------------------------------------------- test

# run_test NAME COMMAND..: prints the test's last line; if it fails, its first lines too.
run_test() {
    local name=$1 log=$out/test.log status=0
    shift
    "$@" >"$log" 2>&1 || status=$?
    if [ "$status" -ne 0 ]; then
        head -n 20 "$log" >&2
        fail "$name: status $status, $(tail -n 1 "$log") (all of it is in $log)"
    fi
    echo "$name: $(tail -n 1 "$log")"
}

check_library() {
    local source=tests/host/test_gps_chips.c

    "${cc[@]}" "${strict[@]}" -O2 "$source" "$archive" -o "$out/test_gps_chips" \
        || fail "the test doesn't compile"
    run_test "test" "$out/test_gps_chips" tests/tables

    "${cc[@]}" "${strict[@]}" -O2 "${sanitized[@]}" "$source" "$archive" -o "$out/test_gps_chips_sanitized" \
        || fail "the test doesn't compile with sanitizers"
    run_test "test with sanitizers" "$out/test_gps_chips_sanitized" tests/tables

    if command -v valgrind >/dev/null; then
        run_test "test under valgrind" valgrind --error-exitcode=1 -q "$out/test_gps_chips" tests/tables
    else
        echo "test under valgrind: not run, valgrind isn't installed"
    fi

    "${cc[@]}" "${strict[@]}" -O2 tests/host/stack.c "$archive" -o "$out/stack" \
        || fail "the stack measure doesn't compile"
    run_test "stack" "$out/stack"
}

# ----------------------------------------------------------- host program

chips=$out/chips
lines=0

# Runs the program; leaves its status, and its output in files.
run_chips() {
    lines=$((lines + 1))
    status=0
    "$chips" "$@" >"$out/stdout" 2>"$out/stderr" || status=$?
}

# prints EXPECTED ARGUMENT..: one line, nothing on stderr, status 0.
prints() {
    local expected=$1
    shift
    run_chips "$@"
    [ "$status" -eq 0 ] || fail "chips $*: expected status 0, got $status: $(cat "$out/stderr")"
    printf '%s\n' "$expected" | cmp -s - "$out/stdout" \
        || fail "chips $*: expected $(cut_short "$expected"), got $(cut_short "$(cat "$out/stdout")")"
    [ ! -s "$out/stderr" ] || fail "chips $*: expected nothing on stderr, got: $(cat "$out/stderr")"
}

# stops STATUS WORDS ARGUMENT..: the status, the words on stderr, nothing on stdout.
stops() {
    local expected=$1 words=$2
    shift 2
    run_chips "$@"
    [ "$status" -eq "$expected" ] || fail "chips $*: expected status $expected, got $status"
    grep -qF -- "$words" "$out/stderr" || fail "chips $*: expected '$words' on stderr, got: $(cat "$out/stderr")"
    [ ! -s "$out/stdout" ] || fail "chips $*: expected nothing on stdout, got $(cut_short "$(cat "$out/stdout")")"
}

# not_written FILE ARGUMENT..: status 3 and a message where the output can't be written.
not_written() {
    local file=$1
    shift
    lines=$((lines + 1))
    status=0
    if [ "$file" = closed ]; then
        "$chips" "$@" >&- 2>"$out/stderr" || status=$?
    else
        "$chips" "$@" >"$file" 2>"$out/stderr" || status=$?
    fi
    [ "$status" -eq 3 ] || fail "chips $* to $file: expected status 3, got $status"
    grep -q "can't be written" "$out/stderr" || fail "chips $* to $file: expected a message, got: $(cat "$out/stderr")"
}

cut_short() {
    if [ ${#1} -le 80 ]; then echo "'$1'"; else echo "'${1:0:60}..' (${#1} characters)"; fi
}

# joins SIGNAL PRN PLACE FIRST NEXT SECOND: FIRST + SECOND chips from PLACE are FIRST from there and SECOND from NEXT.
joins() {
    local first second
    first=$("$chips" "$1" "$2" "$3" "$4") || fail "chips $1 $2 $3 $4: status $?"
    second=$("$chips" "$1" "$2" "$5" "$6") || fail "chips $1 $2 $5 $6: status $?"
    [ ${#first} -eq "$4" ] || fail "chips $1 $2 $3 $4: expected $4 chips, got ${#first}"
    [ ${#second} -eq "$6" ] || fail "chips $1 $2 $5 $6: expected $6 chips, got ${#second}"
    prints "$first$second" "$1" "$2" "$3" $(($4 + $6))
    lines=$((lines + 2))
}

check_printed() {
    prints 1100100000 1 1 0 10
    prints 1100100000 ca 1 0 10
    prints 1100100000 001 01 000 0010
    prints 1111001011 ca 37 0 10
    prints 100100100100 2 1 0 12
    prints 100100100100 p 1 0 12
    prints 100000000000 p 2 0 12
    prints 100011100011 p 10 0 12
    prints 1101100010101 5 1 0 13
    prints 1101100010101 i5 1 0 13
    prints "" ca 1 0 0
    prints "" q5 37 6187103999999 0

    # Names and numbers are the same signals.
    local n=1 name
    for name in ca p cm cl i5 q5; do
        prints "$("$chips" $n 7 1000 100)" $name 7 1000 100
        n=$((n + 1))
    done
}

check_long_lines() {
    joins ca 1 0 65536 65536 1
    joins ca 1 0 65536 65536 65536
    joins p 37 15300000 60000 15360000 60000
    joins ca 3 618710399900 100 0 70000
    joins p 3 6187103930000 70000 0 70000
    joins cm 3 309355199999 1 0 65536
    joins cl 3 309355130000 70000 0 10
    joins i5 3 6187103999999 1 0 1
    joins q5 3 6187103930000 70000 0 70000
}

check_wrong_usage() {
    local wrong
    stops 2 "expected four arguments, got 0"
    stops 2 "expected four arguments, got 1" 1
    stops 2 "expected four arguments, got 3" 1 1 0
    stops 2 "expected four arguments, got 5" 1 1 0 10 10
    stops 2 "expected four arguments, got 2" --help 1
    for wrong in "" x -1 +1 " 1" "1 " 0x10 1.0 1e3 1,000 99999999999999999999x; do
        stops 2 "SIGNAL is '$wrong': expected decimal digits or one of ca, p, cm, cl, i5, q5" "$wrong" 1 0 10
        stops 2 "PRN is '$wrong': expected decimal digits" 1 "$wrong" 0 10
        stops 2 "PLACE is '$wrong': expected decimal digits" 1 1 "$wrong" 10
        stops 2 "COUNT is '$wrong': expected decimal digits" 1 1 0 "$wrong"
    done
    for wrong in CA c/a l1 caca; do
        stops 2 "SIGNAL is '$wrong'" "$wrong" 1 0 10
    done
    for wrong in 18446744073709551616 18446744073709551617 99999999999999999999 100000000000000000000000000; do
        stops 2 "SIGNAL is $wrong: expected at most 18446744073709551615" "$wrong" 1 0 10
        stops 2 "PRN is $wrong: expected at most 18446744073709551615" 1 "$wrong" 0 10
        stops 2 "PLACE is $wrong: expected at most 18446744073709551615" 1 1 "$wrong" 10
        stops 2 "COUNT is $wrong: expected at most 18446744073709551615" 1 1 0 "$wrong"
    done
}

check_refused() {
    local wrong
    for wrong in 0 7 257 4294967297 18446744073709551615; do
        stops 1 "refused, 1: signal $wrong is not 1 to 6" $wrong 1 0 10
    done
    for wrong in 0 38 257 4294967297 18446744073709551615; do
        stops 1 "refused, 2: PRN $wrong is not 1 to 37" p $wrong 0 10
    done
    stops 1 "refused, 3: place 618710400000 is not below 618710400000" ca 1 618710400000 10
    stops 1 "refused, 3: place 309355200000 is not below 309355200000" cm 1 309355200000 10
    stops 1 "refused, 3: place 309355200001 is not below 309355200000" cl 1 309355200001 10
    stops 1 "refused, 3: place 18446744073709551615 is not below 6187104000000" p 1 18446744073709551615 10
    stops 1 "refused, 3: place 6187104000000 is not below 6187104000000" i5 1 6187104000000 100000
    stops 1 "refused, 3: place 6187104000000 is not below 6187104000000" q5 1 6187104000000 0
    stops 1 "refused, 1:" 7 38 6187104000000 10
    stops 1 "refused, 2:" 6 38 6187104000000 10
    stops 1 "refused, 1:" 7 1 0 0
    stops 1 "refused, 2:" 1 0 0 18446744073709551615
}

check_help() {
    run_chips --help
    [ "$status" -eq 0 ] || fail "chips --help: expected status 0, got $status"
    grep -q '^usage: chips SIGNAL PRN PLACE COUNT$' "$out/stdout" || fail "chips --help: expected the usage on stdout"
    [ ! -s "$out/stderr" ] || fail "chips --help: expected nothing on stderr, got: $(cat "$out/stderr")"
}

check_write_errors() {
    not_written closed ca 1 0 10
    not_written closed ca 1 0 0
    not_written closed --help
    if [ -w /dev/full ]; then
        not_written /dev/full ca 1 0 10
        not_written /dev/full ca 1 0 0
        not_written /dev/full ca 1 0 200000
        not_written /dev/full --help
    else
        echo "host program: a full disk is not tested, there is no /dev/full"
    fi
}

check_host_program() {
    "${cc[@]}" "${strict[@]}" -pedantic -O2 host/chips.c "$archive" -o "$chips" \
        || fail "the host program doesn't compile"
    check_printed
    check_long_lines
    check_wrong_usage
    check_refused
    check_help
    check_write_errors
    echo "host program: $lines command lines gave what they should"
}

if command -v nm >/dev/null && command -v size >/dev/null; then
    check_archive
else
    echo "archive: symbols and size not checked, nm or size isn't installed"
fi
if command -v objdump >/dev/null && command -v as >/dev/null; then
    check_machine_code
else
    echo "machine code: not searched, objdump or as isn't installed"
fi
check_header
check_library
check_host_program
