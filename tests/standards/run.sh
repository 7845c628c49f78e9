#!/usr/bin/env bash
# Compares the stored output of the program `standards`, and the lists that were typed into the definitions, with the tables that the standards print.
#
#     tests/standards/run.sh [FILE]
#
# FILE is crates/standards/stdout if it isn't given. The program isn't run here: rt runs it and holds what it writes to that file. What is expected is
# built from tests/tables, in the program's layout, to target/standards.
set -eu

fail() {
    echo "tests/standards/run.sh: $*" >&2
    exit 1
}

root=$(cd "$(dirname "$0")/../.." && pwd)
found=${1:-$root/crates/standards/stdout}
[ -f "$found" ] || fail "no file at $found"
found=$(realpath "$found")
cd "$root"

out=$root/target/standards
mkdir -p "$out"
expected=$out/expected

# --------------------------------------------------------------- expected

# Each line of what is expected stands in a line of four cells: table, row, digits of the table in this line, text. A ? in the text is a digit that
# the source has lost.

# heads TABLE LINE..: lines that have no digits of the table.
heads() {
    local table=$1 text
    shift
    for text in "$@"; do
        printf '%s\thead\t0\t%s\n' "$table" "$text"
    done
}

# rows TABLE FILE PROGRAM: the awk program on each row of a file. Its cells go by the names in the file's first line.
rows() {
    [ -f "tests/tables/$2" ] || fail "no table at tests/tables/$2"
    awk -F '\t' -v table="$1" -v file="$2" '
        function cell(name) {
            if (name in column) return $column[name]
            print file " has no column " name >"/dev/stderr"
            exit 1
        }
        function line(row, digits, text) {
            printf "%s\t%s\t%d\t%s\n", table, row, length(digits), text
        }
        # "P37(t+24)", as Tables 6-III and 6-IV write it.
        function advance() {
            return sprintf("P%d(t%s)", cell("p_of_prn"), cell("p_advance_hours") > 0 ? "+" cell("p_advance_hours") : "")
        }
        NR == 1 { for (i = 1; i <= NF; i++) column[$i] = i; next }
        '"$3" "tests/tables/$2" || fail "tests/tables/$2 can't be read"
}

expect_3_Ia() {
    local table='Table 3-Ia'
    heads "$table" 'IS-GPS-200 Table 3-Ia. Code Phase Assignments: stages of G2, code delay of C/A (chips), first 10 chips of C/A, first 12 chips of P (octal)' '' \
        'PRN  G2     Delay  C/A   P'
    # An empty cell of P is an arrow in print, with 4343 at both ends.
    rows "$table" table_3-Ia.tsv '{
        first = cell("tap1"); second = cell("tap2"); delay = cell("ca_delay")
        ca = cell("ca_first10_octal"); p = cell("p_first12_octal") == "" ? "4343" : cell("p_first12_octal")
        line("PRN " cell("prn"), first second delay ca p, sprintf("%3d  %2d %2d  %5d  %s  %s", cell("prn"), first, second, delay, ca, p))
    }'
    heads "$table" ''
}

expect_3_IIa() {
    local table='Table 3-IIa'
    heads "$table" 'IS-GPS-200 Table 3-IIa. Code Phase Assignments: initial and end shift register state (octal)' '' \
        '     Initial               End' 'PRN  L2 CM      L2 CL      L2 CM      L2 CL'
    rows "$table" table_3-IIa.tsv '{
        cm = cell("cm_start_octal"); cl = cell("cl_start_octal"); cm_end = cell("cm_end_octal"); cl_end = cell("cl_end_octal")
        line("PRN " cell("prn"), cm cl cm_end cl_end, sprintf("%3d  %s  %s  %s  %s", cell("prn"), cm, cl, cm_end, cl_end))
    }'
    heads "$table" ''
}

expect_3_VI() {
    local table='Table 3-VI'
    heads "$table" 'IS-GPS-200 Table 3-VI. P-Code Reset Timing (last 400 microseconds of 7-day period): code chip' '' \
        ' X1A   X1B   X2A   X2B'
    rows "$table" table_3-VI.tsv '{
        x1a = cell("x1a_chip"); x1b = cell("x1b_chip"); x2a = cell("x2a_chip"); x2b = cell("x2b_chip")
        line("X1A chip " x1a, x1a x1b x2a x2b, sprintf("%4d  %4d  %4d  %4d", x1a, x1b, x2a, x2b))
    }'
    heads "$table" ''
}

expect_3_VII() {
    local table='Table 3-VII'
    heads "$table" 'IS-GPS-200 Table 3-VII. Final Code Vector States' '' 'Code  Chip  Vector State  1st Chip following Epoch'
    rows "$table" table_3-VII.tsv '{
        code = cell("code"); chip = cell("chip_number"); state = cell("vector_state"); after = cell("vector_state_after_epoch")
        line(code " chip " chip, chip state after, sprintf("%s   %4d  %s  %s", code, chip, state, after))
    }'
    heads "$table" ''
}

expect_6_III() {
    local table='Table 6-III'
    heads "$table" 'IS-GPS-200 Table 6-III. First 256 P-code Chips of the Week for Selected Code Phase Assignments' '' \
        'PRN  Advance     P-code, left-to-right from beginning of GPS week (hexadecimal)'
    rows "$table" table_6-III.tsv '{
        chips = cell("first256_hex")
        line("PRN " cell("prn"), chips, sprintf("%03d  %-10s  %s", cell("prn"), advance(), chips))
    }'
    heads "$table" ''
}

expect_6_IV() {
    local table='Table 6-IV'
    heads "$table" 'IS-GPS-200 Table 6-IV. Last 1024 P-code Chips of the Week for Selected Code Phase Assignments' '' \
        'PRN  Advance     P-code, left-to-right to last chip of GPS week (hexadecimal)'
    rows "$table" table_6-IV.tsv '{
        chips = cell("last1024_hex_with_?_for_damaged")
        start = sprintf("%03d  %-10s  ", cell("prn"), advance())
        for (at = 1; at <= length(chips); at += 53) {
            part = substr(chips, at, 53)
            line("PRN " cell("prn"), part, start part)
            start = sprintf("%17s", "")
        }
    }'
    heads "$table" ''
}

expect_705_3_I() {
    local table='Table 3-I of IS-GPS-705'
    heads "$table" 'IS-GPS-705 Table 3-I. Code Phase Assignments: initial XB code state' '' 'PRN  I5             Q5'
    rows "$table" table_705_3-I.tsv '{
        i5 = cell("i5_vector"); q5 = cell("q5_vector")
        line("PRN " cell("prn"), i5 q5, sprintf("%3d  %s  %s", cell("prn"), i5, q5))
    }'
    heads "$table" ''
}

expect_known_places() {
    local table='Known places of document 01'
    heads "$table" 'Document 01, known places' ''
    rows "$table" known_places.tsv '{
        digits = cell("value")
        gsub(/X1A|X1B|X2A|X2B|[^0-9]/, "", digits)
        line("\"" cell("words") "\"", digits, cell("words") " " cell("value"))
    }'
}

# ------------------------------------------------------------- comparison

# The digits that the source text has lost: 65 of Table 6-IV and one of Table 3-VII. docs/DECISIONS.md says which.
lost=66

# Line by line, a ? like any one digit. The first lines that differ are shown; if none does, what was compared.
compare() {
    awk -F '\t' -v name="$found" -v known="$lost" '
        # The first column where the two differ, 0 if they do not.
        function differ(want, got,    i, c) {
            for (i = 1; i <= length(want) || i <= length(got); i++) {
                c = substr(want, i, 1)
                if (c != substr(got, i, 1) && !(c == "?" && substr(got, i, 1) ~ /^[0-9A-F]$/)) return i
            }
            return 0
        }
        NR == FNR { table[NR] = $1; row[NR] = $2; digits[NR] = $3; text[NR] = $4; lines = NR; next }
        FNR > lines { extra++; next }
        {
            read = FNR
            at = differ(text[FNR], $0)
            if (at && ++wrong <= 3) {
                printf "%s, %s (line %d of %s), from column %d on:\n", table[FNR], row[FNR], FNR, name, at
                printf "    expected: %s\n    found:    %s\n", text[FNR], $0
            }
        }
        END {
            if (extra || read < lines) printf "expected %d lines, found %d\n", lines, read + extra
            if (wrong) printf "%d of %d lines differ\n", wrong, lines
            if (wrong || extra || read < lines) exit 1
            for (n = 1; n <= lines; n++) {
                if (table[n] != table[n - 1]) order[++tables] = table[n]
                if (row[n] == "head") continue
                if (row[n] != row[n - 1]) rows[table[n]]++
                all[table[n]] += digits[n]
                marks = gsub(/\?/, "", text[n])
                lost[table[n]] += marks
                total += marks
            }
            if (total != known) {
                printf "the tables have %d digits marked ?, expected %d\n", total, known
                exit 1
            }
            for (n = 1; n <= tables; n++) {
                t = order[n]
                said = lost[t] ? ", " lost[t] " lost in the source" : ""
                printf "%s: %d rows, %d digits compared%s\n", t, rows[t], all[t] - lost[t], said
            }
        }' "$expected" "$found"
}

{
    expect_3_Ia
    expect_3_IIa
    expect_3_VI
    expect_3_VII
    expect_6_III
    expect_6_IV
    expect_705_3_I
    expect_known_places
} >"$expected"

compare >"$out/report" || { cat "$out/report" >&2; fail "the comparison of $found with tests/tables failed"; }
bytes=$(awk -F '\t' '{ sum += length($4) + 1 } END { print sum }' "$expected")
[ "$(wc -c <"$found")" -eq "$bytes" ] || fail "$found has $(wc -c <"$found") bytes, expected $bytes"
cat "$out/report"

# ------------------------------------------------------------ definitions

# typed FILE NAME: the numbers of a list in a definition, one to a line, as written but for the mark of their base.
typed() {
    awk -v head="$2 =" '
        index($0, head) == 1 { inside = 1; $0 = substr($0, length(head) + 1) }
        inside {
            gsub(/∷/, " ")
            last = gsub(/\[\]/, " ")
            for (i = 1; i <= NF; i++) { sub(/^0[bo]/, "", $i); print $i }
            if (last) exit
        }' "crates/$1"
}

# printed TABLE COLUMN..: the cells of these columns, row by row, one to a line.
printed() {
    local table=$1
    shift
    awk -F '\t' -v columns="$*" '
        NR == 1 { count = split(columns, name, " "); for (i = 1; i <= NF; i++) column[$i] = i; next }
        { for (i = 1; i <= count; i++) print $column[name[i]] }' "tests/tables/$table"
}

# same_list FILE NAME TABLE COLUMN..: the list is these columns of the table.
same_list() {
    local file=$1 name=$2
    shift 2
    typed "$file" "$name" >"$out/typed"
    printed "$@" >"$out/printed"
    [ -s "$out/printed" ] || fail "tests/tables/$1 has no rows"
    cmp -s "$out/typed" "$out/printed" || fail "crates/$file, $name: not ${*:2} of tests/tables/$1: $(diff "$out/typed" "$out/printed" | head -3 | paste -sd ' ')"
    lists=$((lists + 1))
    numbers=$((numbers + $(wc -l <"$out/printed")))
}

# same_vector FILE NAME CODE: the number is the vector that Table 3-VII prints for a code's 1st chip following the epoch. Of two rows the first is whole.
same_vector() {
    local file=$1 name=$2 code=$3 wanted
    wanted=$(awk -F '\t' -v code="$code" '
        NR == 1 { for (i = 1; i <= NF; i++) column[$i] = i; next }
        $column["code"] == code { print $column["vector_state_after_epoch"]; exit }' tests/tables/table_3-VII.tsv)
    [ "${#wanted}" -eq 12 ] || fail "tests/tables/table_3-VII.tsv has no vector of $code"
    grep -qxF "$name = 0b$wanted" "crates/$file" || fail "crates/$file, $name: not $wanted, which tests/tables/table_3-VII.tsv has for $code"
    vectors=$((vectors + 1))
}

lists=0 numbers=0 vectors=0
same_list starts/specs/Starts.antt stages_ca table_3-Ia.tsv tap1 tap2
same_list standard/specs/Tables.antt code_delays table_3-Ia.tsv ca_delay
same_list starts/specs/Starts.antt starts_cm table_3-IIa.tsv cm_start_octal
same_list starts/specs/Starts.antt starts_cl table_3-IIa.tsv cl_start_octal
same_list standard/specs/Tables.antt states_cm table_3-IIa.tsv cm_start_octal
same_list standard/specs/Tables.antt states_cl table_3-IIa.tsv cl_start_octal
same_list known_places/specs/EndStates.antt ends_cm table_3-IIa.tsv cm_end_octal
same_list known_places/specs/EndStates.antt ends_cl table_3-IIa.tsv cl_end_octal
for crate in starts/specs/Starts.antt standard/specs/Tables.antt; do
    same_list "$crate" advances_i5 table_705_3-I.tsv i5_advance
    same_list "$crate" advances_q5 table_705_3-I.tsv q5_advance
done
same_list starts/specs/PrintedVectors.antt vectors_i5 table_705_3-I.tsv i5_vector
same_list starts/specs/PrintedVectors.antt vectors_q5 table_705_3-I.tsv q5_vector
same_vector standard/specs/Registers.antt vector_x1a X1A
same_vector standard/specs/Registers.antt vector_x1b X1B
same_vector standard/specs/Registers.antt vector_x2a X2A
same_vector standard/specs/Registers.antt vector_x2b X2B
echo "definitions: $lists lists, $numbers numbers, and $vectors vectors are those of the tables"
