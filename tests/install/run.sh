#!/usr/bin/env bash
# Tests `make install` and `make uninstall`: what lands where, and that a user who has only the installed files can work with them.
#
#     tests/install/run.sh
#
# It installs what stands in target/ and needs no rt. All that it writes goes to a temporary folder.
set -eu

fail() {
    echo "tests/install/run.sh: $*" >&2
    exit 1
}

cd "$(dirname "$0")/../.."
out=$(realpath "$(mktemp -d)")
trap 'rm -rf "$out"' EXIT
prefix=$out/usr
read -ra cc <<<"${CC:-cc}"
read -ra cxx <<<"${CXX:-c++}"

# What is set for a make or a pkg-config of the caller's could lead out of the temporary folder.
unset MAKEFLAGS MFLAGS PREFIX BINDIR LIBDIR INCLUDEDIR MANDIR DESTDIR PKG_CONFIG_LIBDIR PKG_CONFIG_SYSROOT_DIR
export PKG_CONFIG_PATH=$prefix/lib/pkgconfig

built=(target/staticlib/libgps_chips.a target/bin/codes target/bin/console)
make --no-print-directory -q "${built[@]}" || fail "not in target/, or older than crates/ ('make lib codes console' builds them): ${built[*]}"

# An rt that answers nothing stands before any other: who asks for it is found out.
mkdir "$out/first"
printf '#!/bin/sh\necho "rt was asked: $*" >&2\nexit 1\n' >"$out/first/rt"
chmod +x "$out/first/rt"
export PATH="$out/first:$PATH"

# run_make ARGUMENT..: leaves the status, and what was said in $out/log.
run_make() {
    status=0
    make --no-print-directory "$@" >"$out/log" 2>&1 || status=$?
}

makes() {
    run_make "$@"
    [ "$status" -eq 0 ] || fail "make $*: status $status: $(cat "$out/log")"
}

# refuses WORDS ARGUMENT..: make fails and says these words.
refuses() {
    local words=$1
    shift
    run_make "$@"
    [ "$status" -ne 0 ] || fail "make $*: expected it to fail"
    grep -qF -- "$words" "$out/log" || fail "make $*: expected '$words', got: $(cat "$out/log")"
}

# ------------------------------------------------------------------ files

# A mode, a file below PREFIX, and what it is a copy of.
files='755 bin/codes target/bin/codes
755 bin/console target/bin/console
644 include/gps_chips.h include/gps_chips.h
644 lib/libgps_chips.a target/staticlib/libgps_chips.a
644 lib/pkgconfig/gps_chips.pc
644 share/man/man1/codes.1 man/codes.1
644 share/man/man1/console.1 man/console.1
644 share/man/man3/gps_chips.3 man/gps_chips.3'

# has_all FOLDER: the files and no others, whole, with their modes; folders that all may enter.
has_all() {
    local found closed mode file source
    found=$(find "$1" ! -type d -printf '%m %P\n' | LC_ALL=C sort -k 2)
    [ "$found" = "$(cut -d ' ' -f 1,2 <<<"$files")" ] || fail "$1: expected the eight files, got:"$'\n'"$found"
    closed=$(find "$1" -type d ! -perm 755)
    [ -z "$closed" ] || fail "$1: expected folders of mode 755, got: $closed"
    while read -r mode file source; do
        [ -z "$source" ] || cmp -s "$source" "$1/$file" || fail "$1/$file ($mode) is not $source"
    done <<<"$files"
}

# has_none FOLDER: folders alone.
has_none() {
    local found
    found=$(find "$1" ! -type d)
    [ -z "$found" ] || fail "$1: expected no file, got: $found"
}

# says FILE LINE: the file has this line.
says() {
    grep -qxF -- "$2" "$1" || fail "$1: expected '$2', got:"$'\n'"$(cat "$1")"
}

# In a subshell, for the umask of one who shows his files to nobody.
check_prefix() (
    umask 077
    makes install PREFIX="$prefix"
    has_all "$prefix"
    makes install PREFIX="$prefix"
    has_all "$prefix"
    echo "install: eight files below PREFIX, a second time too"
)

# DESTDIR is nowhere in what is installed, and may have a space.
check_destdir() {
    local stage="$out/a stage"
    makes install DESTDIR="$stage" PREFIX=/usr
    has_all "$stage/usr"
    [ "$(find "$stage" ! -type d | wc -l)" = 8 ] || fail "$stage: files that are not below PREFIX"
    says "$stage/usr/lib/pkgconfig/gps_chips.pc" prefix=/usr
    ! grep -rqF "$stage" "$stage" || fail "DESTDIR stands in $(grep -rlF "$stage" "$stage")"
    makes uninstall DESTDIR="$stage" PREFIX=/usr
    has_none "$stage"
    echo "install: below DESTDIR, and away again"
}

check_folders() {
    local relative pc=$out/there/lib/pkgconfig/gps_chips.pc
    relative=$(realpath -m --relative-to=. "$out/there")
    makes install PREFIX="$relative"
    has_all "$out/there"
    says "$pc" "prefix=$out/there"
    # shellcheck disable=SC2016 # ${prefix} is pkg-config's
    says "$pc" 'libdir=${prefix}/lib'
    makes uninstall PREFIX="$relative"
    has_none "$out/there"

    makes install PREFIX="$out/p" BINDIR="$out/b" LIBDIR="$out/p/lib64" INCLUDEDIR="$out/i" MANDIR="$out/m"
    for file in b/codes b/console i/gps_chips.h p/lib64/libgps_chips.a p/lib64/pkgconfig/gps_chips.pc m/man1/codes.1 m/man1/console.1 m/man3/gps_chips.3; do
        [ -f "$out/$file" ] || fail "folders of their own: no $file"
    done
    # shellcheck disable=SC2016
    says "$out/p/lib64/pkgconfig/gps_chips.pc" 'libdir=${prefix}/lib64'
    says "$out/p/lib64/pkgconfig/gps_chips.pc" "includedir=$out/i"
    makes uninstall PREFIX="$out/p" BINDIR="$out/b" LIBDIR="$out/p/lib64" INCLUDEDIR="$out/i" MANDIR="$out/m"
    for folder in p b i m; do has_none "$out/$folder"; done
    echo "install: a relative PREFIX is made absolute, and each folder may be set"
}

check_refused() {
    refuses "PREFIX is '$out/a b'" install PREFIX="$out/a b"
    refuses "MANDIR is 'a b'" install PREFIX="$out/c" MANDIR='a b'
    refuses "PREFIX is ''" install PREFIX=
    refuses "PREFIX is '$out/a b'" uninstall PREFIX="$out/a b"
    if [ -e "$out/a" ] || [ -e "$out/a b" ] || [ -e "$out/c" ]; then fail "a folder was made for an install that was refused"; fi
    : >"$out/file"
    refuses "nothing is installed: $out/file/bin" install PREFIX="$out/file"
    echo "install: a space in a folder and a folder that can't be written are told"
}

# What rt would be asked for, by what make would do.
check_building() {
    local ask
    makes -n install PREFIX="$prefix"
    ! grep -q 'rt lib\|rt run' "$out/log" || fail "make install asks rt though all is built: $(cat "$out/log")"
    makes -n install PREFIX="$prefix" -W crates.txt
    for ask in 'cd crates/gps_chips_c && rt lib' 'cd crates/codes && rt run' 'cd crates/console && rt run'; do
        grep -qF "$ask" "$out/log" || fail "make install with older things: expected '$ask', got: $(cat "$out/log")"
    done
    echo "install: asks rt for what is older than its sources, and for nothing else"
}

# ---------------------------------------------------------------------- C

example=$out/example.c

# prints COMMAND..: compiled so, in a folder that is not the tree, the header's example prints its chips.
prints() {
    local printed
    rm -f "$out/a.out"
    (cd "$out" && "$@") || fail "$*: doesn't compile"
    printed=$("$out/a.out") || fail "$*: the program ended with status $?"
    [ "$printed" = 1100100000 ] || fail "$*: expected 1100100000, got $printed"
}

# Where there is no pkg-config its part is played here: the variables of a .pc file are as the shell's.
stand_in_for_pkg_config() {
    local pc=$prefix/lib/pkgconfig/gps_chips.pc field
    for field in Name Description Version Cflags Libs; do
        grep -q "^$field: ." "$pc" || fail "$pc: no $field"
    done
    printf '#!/bin/sh\n%s\necho "%s"\n' "$(grep '^[a-z]*=' "$pc")" "$(sed -n 's/^Cflags: //p; s/^Libs: //p' "$pc" | paste -sd ' ')" >"$out/first/pkg-config"
    chmod +x "$out/first/pkg-config"
    echo "pkg-config isn't installed: gps_chips.pc is read by the test itself"
}

check_c() {
    local flags version languages=C
    tests/host/example.sh >"$example"
    if command -v pkg-config >/dev/null; then
        version=$(pkg-config --modversion gps_chips) || fail "pkg-config doesn't find gps_chips"
        [ "$version" = "$(sed -n 's/^VERSION := //p' Makefile)" ] || fail "gps_chips.pc has version $version, and the Makefile another"
    else
        stand_in_for_pkg_config
    fi
    read -ra flags <<<"$(pkg-config --cflags --libs gps_chips)"
    prints "${cc[@]}" -Wall -Wextra -Werror "${flags[@]}" example.c
    prints "${cc[@]}" -Wall -Wextra -Werror example.c "${flags[@]}"
    if command -v "${cxx[0]}" >/dev/null; then
        cp "$example" "$out/example.cc"
        prints "${cxx[@]}" -Wall -Wextra -Werror "${flags[@]}" example.cc
        prints "${cxx[@]}" -Wall -Wextra -Werror example.cc "${flags[@]}"
        languages="C and C++"
    fi
    echo "pkg-config: the header's example compiles as $languages outside the tree, its flags before the source or behind it"
}

# --------------------------------------------------------------- programs

# answers PROGRAM LINE ANSWER
answers() {
    local answer
    answer=$(echo "$2" | "$prefix/bin/$1") || fail "$1: status $?"
    [ "$answer" = "$3" ] || fail "$1, '$2': expected '$3', got '$answer'"
}

check_programs() {
    answers codes '2 1 0 12' '2 1 0 100100100100'
    answers console 'reading 2 1' 'ok 0 1'
    echo "programs: both answer"
}

# ----------------------------------------------------------------- manual

pages=(codes.1 console.1 gps_chips.3)

check_manual() {
    local page found wide
    for page in "${pages[@]}"; do
        if command -v man >/dev/null; then
            found=$(man -M "$prefix/share/man" -w "${page#*.}" "${page%.*}") || fail "man doesn't find $page"
            [ "$found" = "$prefix/share/man/man${page#*.}/$page" ] || fail "man finds $page at $found"
        fi
        if command -v groff >/dev/null; then
            groff -ww -mdoc -Tascii -P-cbou -rLL=80n "man/$page" >"$out/page" 2>"$out/warnings" || fail "$page: groff ends with status $?"
            [ ! -s "$out/warnings" ] || fail "$page: $(cat "$out/warnings")"
            wide=$(awk 'length > 80' "$out/page")
            [ -z "$wide" ] || fail "$page: wider than 80 columns:"$'\n'"$wide"
        fi
    done
    command -v man >/dev/null || echo "manual: not looked for, man isn't installed"
    command -v groff >/dev/null || echo "manual: not rendered, groff isn't installed"
    echo "manual: ${#pages[@]} pages"
}

# replayed EXAMPLE: the example again, with what is answered now. A line with $ is a command of the shell, one with > a command of the console.
replayed() {
    local line command
    case $1 in
        '> '*) paste -d '\n' <(grep '^> ' <<<"$1") <(sed -n 's/^> //p' <<<"$1" | console) ;;
        '$ '*)
            while IFS= read -r line; do
                case $line in '$ '*) ;; *) continue ;; esac
                echo "$line"
                command=${line#'$ '}
                bash -c "${command/#cc /"${cc[*]} "}" 2>&1
            done <<<"$1"
            ;;
        *) cat example.c ;;
    esac
}

# The examples of the manual are what the installed programs answer, and the one in C is the header's.
check_examples() (
    local page line example again checked=0 inside=false
    root=$PWD
    cd "$out"
    PATH=$prefix/bin:$PATH
    for page in "${pages[@]}"; do
        while IFS= read -r line; do
            case $inside$line in
                'false.Bd -literal'*) inside=true example= ;;
                true.Ed)
                    inside=false checked=$((checked + 1))
                    again=$(replayed "${example%$'\n'}") || fail "$page: fails:"$'\n'"$example"
                    [ "$again" = "${example%$'\n'}" ] || fail "$page: expected as in the manual"$'\n'"$example"$'\n'"got"$'\n'"$again"
                    ;;
                true*) example+=$line$'\n' ;;
            esac
        done < <(sed "s/\\\\-/-/g; s/\\\\(aq/'/g; s/\\\\&//g; s/\\\\e/\\\\/g" "$root/man/$page")
        [ $inside = false ] || fail "$page: an example that has no end"
    done
    [ $checked -ge 8 ] || fail "expected at least eight examples in the manual, found $checked"
    echo "manual: $checked examples are what is answered"
)

# -------------------------------------------------------------- uninstall

check_uninstall() {
    local found other=$prefix/lib/pkgconfig/other.pc
    : >"$other"
    makes uninstall PREFIX="$prefix"
    found=$(find "$prefix" ! -type d)
    [ "$found" = "$other" ] || fail "uninstall: expected that $other stays and nothing else, got: $found"
    makes uninstall PREFIX="$prefix"
    echo "uninstall: all eight are gone, and nothing else"
}

check_prefix
check_destdir
check_folders
check_refused
check_building
check_c
check_programs
check_manual
check_examples
check_uninstall
