#!/usr/bin/env bash
# Checks what docs/CERTIFICATE.md cites, and that the files exist that the other documents name. It needs no toolchain.
#
#     tests/certificate/run.sh [DOCUMENT]
#
# A citation is a part in backticks of one of these forms; whatever else stands in backticks is no citation.
#
#     FILE: NAME, NAME   a file and names that it declares; in a .rt file NAME may be FUNCTION.CLAUSE, a clause of what the function ensures
#     FILE               a file or a folder
#     CRATE/EDIT         crates/CRATE/must-fail/EDIT.edit
#     .. ≡ ..            a promise, which stands so in a file that the same row cites
#
# A FILE is looked for under crates/ and then from the root of the repository. Each row of a table has to cite something, and each edit of the repository has
# to be cited. A promise is what a function ensures, and what has to be believed is a definition: no name in a proof is cited. Where a program was proved here,
# what it assumes is compared with what rt said of it.
set -eu

cd "$(dirname "$0")/../.."
document=${1:-docs/CERTIFICATE.md}
failures=0
rows=0 files=0 names=0 promises=0
declare -A cited=()

wrong() {
    echo "tests/certificate/run.sh: $document:$line: $*" >&2
    failures=$((failures + 1))
}

# found FILE: where it stands.
found() {
    if [ -e "crates/$1" ]; then echo "crates/$1"; elif [ -e "$1" ]; then echo "$1"; else return 1; fi
}

# ensures FILE FUNCTION CLAUSE: whether a function of that name has an `ensures` of that name between its head and its body.
ensures() {
    awk -v function_name="$2" -v clause="$3" '
        $0 ~ "(^| )fn " function_name "[(<]" { inside = 1 }
        inside && $0 ~ "^ *ensures " clause " [{]" { found = 1 }
        inside && (/^ *[{]/ || /;$/) { inside = 0 }
        END { exit !found }' "$1"
}

# declares FILE NAME: whether the file has a declaration of that name.
declares() {
    local name=${2//./\\.}
    case $1:$2 in
        *.rt:*.*) ensures "$1" "${2%%.*}" "${2#*.}"; return ;;
    esac
    case $1 in
        # a definition, a theorem, a field or a constructor, with its type; a record or a data type
        *.antt) grep -qE "^ *((pub|abbrev|unfoldable) )*$name : |^(pub )?(record|data) $name( |$)" "$1" ;;
        # a function, a constant, a type or a trait; a variant or a field
        *.rt) grep -qE "\b(fn|const|struct|enum|trait) $name\b|^ +(pub )?$name(,|\(|:)" "$1" ;;
        *) grep -qw -- "$2" "$1" ;;
    esac
}

check_names() {
    local file=$1 name listed
    IFS=, read -ra listed <<<"$2"
    for name in "${listed[@]}"; do
        name=${name# }
        names=$((names + 1))
        declares "$file" "$name" || wrong "$file declares no $name"
    done
}

# check_row TEXT: its citations. Leaves how many there were.
check_row() {
    local text=$1 span file path cites=() said=()
    citations=0
    while [[ $text == *\`*\`* ]]; do
        text=${text#*\`} span=${text%%\`*} text=${text#*\`}
        case $span in
            *' ≡ '*) said+=("$span") ;;
            *': '*)
                file=${span%%: *}
                if path=$(found "$file"); then
                    files=$((files + 1)) citations=$((citations + 1))
                    cites+=("$path")
                    case $path in crates/*/proofs/*) wrong "a proof is cited: $file" ;; esac
                    check_names "$path" "${span#*: }"
                else
                    wrong "no file $file"
                fi
                ;;
            *' '* | '/'*) ;;
            */*)
                if [ -e "crates/${span%%/*}/must-fail/${span#*/}.edit" ]; then
                    cited[$span]=1
                    citations=$((citations + 1))
                elif path=$(found "$span"); then
                    files=$((files + 1)) citations=$((citations + 1))
                    cites+=("$path")
                    case $path in crates/*/proofs/*) wrong "a proof is cited: $span" ;; esac
                else
                    wrong "neither an edit nor a file: $span"
                fi
                ;;
        esac
    done
    for span in ${said[@]+"${said[@]}"}; do
        promises=$((promises + 1))
        grep -qF -- "$span" "${cites[@]}" || wrong "no file of this row says $span"
    done
}

# check_axioms PROGRAM: the row of that program says how many contracts of C rt took on trust when it proved the program, and has the names that rt gives.
check_axioms() {
    local said row count name
    line=$(grep -nF "| \`$1\` | \`axioms=" "$document" | cut -d: -f1)
    [ -n "$line" ] || { wrong "no row says what the program $1 assumes"; return; }
    said=$(sed -n "/^== $1\$/,/^rt: $1 proved/p" target/rt-ci.log 2>/dev/null || true)
    [[ $said == *axioms* ]] || said=$(cat "target/$1.log" 2>/dev/null || true)
    [[ $said == *axioms* ]] || { unproved+=" $1"; return; }
    row=$(sed -n "${line}p" "$document")
    count=$(grep -o 'axioms=[0-9]*' <<<"$said" | tail -n 1)
    [[ $row == *"\`${count:-axioms=0}\`"* ]] || wrong "rt says ${count:-axioms=0} of $1"
    while IFS= read -r name; do
        [[ $name == ... || $row == *"\`${name##*::}\`"* ]] || wrong "rt says that $1 assumes $name"
    done < <(sed -n 's/^axioms [a-z_]*: \(.*\) (.*/\1/p' <<<"$said" | sed 's/, /\n/g')
    proved+=" $1"
}

# The head of a table cites nothing, and has a line of dashes below it. Any other row has to.
line=0 bare=''
while IFS= read -r text; do
    [[ -z $bare || $text == '|--'* ]] || line=$bare wrong "a row that cites nothing"
    bare=''
    line=$((line + 1))
    check_row "$text"
    case $text in
        '| '*)
            rows=$((rows + 1))
            [ $citations -gt 0 ] || bare=$line
            ;;
        '|--'*) rows=$((rows - 1)) ;;
    esac
done <"$document"
[ -z "$bare" ] || wrong "a row that cites nothing"

for edit in crates/*/must-fail/*.edit; do
    name=${edit#crates/} name=${name%.edit} name=${name/must-fail\//}
    [ -n "${cited[$name]:-}" ] || wrong "$edit is cited nowhere"
done

# The other documents: what is in backticks and begins with a folder of the repository is there.
named=0
for other in README.md docs/*.md tests/*/README.md; do
    [ "$other" != "$document" ] || continue
    line=0
    while IFS= read -r text; do
        line=$((line + 1))
        while [[ $text == *\`*\`* ]]; do
            text=${text#*\`} span=${text%%\`*} text=${text#*\`}
            case $span in
                *' '* | *'*'*) ;;
                crates/* | docs/* | tests/* | include/* | host/* | man/* | bench/*)
                    named=$((named + 1))
                    [ -e "$span" ] || document=$other wrong "no file $span"
                    ;;
            esac
        done
    done <"$other"
done

proved='' unproved=''
for program in codes console standards; do
    check_axioms $program
done

[ $failures -eq 0 ] || exit 1
echo "certificate: $rows rows, $files files and $names names in them, $promises promises, ${#cited[@]} wrong answers: all are there"
echo "documents: $named files are named in the others, and are there"
echo "certificate: assumptions as rt counts them:${proved:- none}${unproved:+; not proved here:$unproved}"
