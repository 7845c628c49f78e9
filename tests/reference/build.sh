# To be sourced, with the archive, the line program and the console as $1, $2 and $3, if they are others than those of target. Finds them, and builds
# the two programs of the reference test, self and differ, into target/reference.

fail() {
    echo "$0: $*" >&2
    exit 1
}

root=$(cd "$(dirname "$0")/../.." && pwd)
archive=${1:-$root/target/staticlib/libgps_chips.a}
codes=${2:-$root/target/bin/codes}
console=${3:-$root/target/bin/console}
[ -f "$archive" ] || fail "no archive at $archive"
[ -x "$codes" ] || fail "no line program at $codes"
[ -x "$console" ] || fail "no console at $console"
archive=$(realpath "$archive")
codes=$(realpath "$codes")
console=$(realpath "$console")

out=$root/target/reference
model=(registers codes machine calls answers boundaries)
read -ra cc <<<"${CC:-cc}"
mkdir -p "$out"

# compile NAME..: these sources to object files.
compile() {
    local name
    for name in "$@"; do
        "${cc[@]}" -std=c99 -Wall -Wextra -Werror -pedantic -O2 -I"$root/include" -c "$root/tests/reference/$name.c" -o "$out/$name.o" ||
            fail "$name.c doesn't compile"
    done
}

# link_program PROGRAM NAME..: a program of these object files, and of the archive.
link_program() {
    local program=$1
    shift
    (cd "$out" && "${cc[@]}" "${@/%/.o}" "$archive" -o "$program") || fail "$program can't be linked"
}

build() {
    local doors=(coverage cases c_call programs differ)
    compile "${model[@]}" self "${doors[@]}"
    link_program self "${model[@]}" self
    link_program differ "${model[@]}" "${doors[@]}"
}
