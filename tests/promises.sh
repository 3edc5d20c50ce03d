#!/usr/bin/env bash
# Holds every name of docs/PROMISES.md and of docs/EDITS.md to the files: definitions, functions, theorems, edits and
# tests; and every edit to docs/EDITS.md. Holds every public function and method, of every source file, and every
# conversion by `From`, to its theorem that no second answer fits, or to its reason among the exceptions; every one that
# C calls to its theorem that it asks nothing; and every one with a `requires` to the page. The theorems of a function
# that C calls are those of the library's, whose parameters, answer and clauses are the export's own: tools/exports.py.
set -uo pipefail
cd "$(dirname "${BASH_SOURCE[0]}")/.." || exit 2

page=docs/PROMISES.md
edits=docs/EDITS.md
missing=0
looked=0

fail() { # fail WORD ..: says what is missing
    printf '%s\n' "$*"
    missing=$((missing + 1))
}

section() { # section HEADING: the section of the page whose heading begins so
    sed -n "/^## $1/,/^## /p" $page
}

# the names that begin a declaration of an antt file, and the functions of a crate: each read once
declare -A declarations functions
while IFS=: read -r file text; do
    declarations[$file ${text##* }]=1
done < <(grep -rEo '^ *(unfoldable |abbrev )*pub (record |enum |data )?[^ ]+' crates/*/{specs,proofs} --include='*.antt')
while IFS=/ read -r _ crate text; do
    functions[$crate ${text##* }]=1
done < <(grep -rEo 'fn [a-z0-9_]+' crates/*/src)

declared() { # declared FILE NAME
    [ -n "${declarations[$1 $2]-}" ]
}

stated_in() { # stated_in CRATE FILE NAME: in specs/ or in proofs/, where a theorem stands that an edit of specs/ breaks
    declared "crates/$1/specs/$2.antt" "$3" || declared "crates/$1/proofs/$2.antt" "$3"
}

function_of() { # function_of CRATE NAME: in any file of the crate
    [ -n "${functions[$1 $2]-}" ]
}

stands() { # stands NAME: 0 where the file has it, 1 where not, 2 where it is no name of this page's forms
    local name=$1 crate rest
    case $name in
        *.rs | *.sh | *.c | *.txt)
            [ -e "tests/bridge/tests/$name" ] || [ -e "$name" ] ;;
        *::*)
            crate=${name%%::*}
            function_of "$crate" "${name##*::}" ;;
        *:*)
            [ -e "crates/${name%%:*}/must-fail/${name#*:}.edit" ] ;;
        */*.*)
            crate=${name%%/*} rest=${name#*/}
            stated_in "$crate" "${rest%%.*}" "${rest#*.}" ;;
        [A-Z]*.*)
            stated_in rules "${name%%.*}" "${name#*.}" ;;
        *) return 2 ;;
    esac
}

while read -r name; do
    stands "$name"
    case $? in
        0) looked=$((looked + 1)) ;;
        1) fail "not found: $name" ;;
    esac
done < <({
    sed -n '/^## Demands/,/^## What is assumed/p' $page
    grep '^|' $edits
    grep -v 'File\.name' docs/RULES.md docs/MATHEMATICS.md
} | grep -o '`[^` ]*`' | tr -d '`' | grep -vE '^(crates|tests/[a-z]+|docs)/' | sort -u)

# and the other way round: every edit stands on its page
listed=$(grep -o '^| `[^`]*` |' $edits)
for edit in crates/*/must-fail/*.edit; do
    crate=${edit#crates/} label=${edit##*/}
    name=${crate%%/*}:${label%.edit}
    [[ $listed == *"| \`$name\` |"* ]] || fail "not on the page: $name"
done

# the promises, a line for each block: its heading, its labels, its edits
promises() {
    sed -n '/^## Demands/,/^## Exceptions/p' $page | awk '
        /^#/ { if (heading != "") print heading "\t" labels "\t" tried; heading = labels = label = tried = "" }
        /^### (D[1-3][a-e]?|One|[0-9]+|C-[0-9]+[a-z])[.] / { heading = substr($0, 5) }
        /^- / { label = $2; labels = labels label }
        label == "Edits:" { tried = tried $0 }'
}

# every sentence has its five labels, and two edits or more
sentences=0
while IFS=$'\t' read -r heading labels names; do
    sentences=$((sentences + 1)) tried=0
    [ "$labels" = Definition:Function:Theorem:Edits:Test: ] || fail "not the labels of a block: $heading"
    for name in $(grep -o '`[a-z_0-9]*:[a-z_0-9]*`' <<<"$names" | tr -d '`'); do
        [ ! -e "crates/${name%%:*}/must-fail/${name#*:}.edit" ] || tried=$((tried + 1))
    done
    [ $tried -ge 2 ] || fail "not two edits: $heading"
done < <(promises)

# the public functions of a source file, with `C ` before those that C calls; its methods are looked at by themselves
public() { # public FILE
    sed -nE '/^impl /,/^}/d; s/^[[:space:]]*pub (extern "C" )?fn ([a-z0-9_]+)[(<].*/\1\2/p' "$1" | sed 's/^extern "C" /C /'
}

# and those of them that ask something of their caller
asking() { # asking FILE
    awk 'match($0, /^ *pub (extern "C" )?fn [a-z0-9_]+/) { name = substr($0, 1, RLENGTH); sub(/.* /, "", name) }
        /^ +requires/ && name != "" { print name; name = "" }
        /^ *\{/ { name = "" }' "$1"
}

# a public function that is excepted, with the reason, on the page
excepted() { # excepted CRATE::PATH
    section Exceptions | grep -q "^- \`$1\`: [^ ]"
}

# every public function has its theorem in promises, or stands with its reason among the exceptions; where two of a crate
# have one name, that of the second has its module's before it
one_answer() { # one_answer CRATE MODULE NAME
    local theorems known
    theorems=crates/promises/proofs/OnlyOne/$(sed -E 's/(^|_)([a-z])/\U\2/g' <<<"$1").antt
    [ -e "$theorems" ] || return 1
    known=$(sed -nE "s/^use Rattle\.$1\.specs\.contracts\.${2:+${2//::/\\.}\\.}${3//./\\.} as (\w+)\$/\1/p" "$theorems")
    [ -n "$known" ] && declared "$theorems" "${known}_one"
}

# the conversions of a source file, as the prover names them: to what, `From`, and the words of what it is made from
conversions() { # conversions FILE
    local target source
    while read -r target source; do
        printf '%sFrom%s.from\n' "$target" "$(grep -oE '\w+' <<<"$source" | sed 's/^./\U&/' | tr -d '\n')"
    done < <(sed -nE 's/^impl From<(.*)> for (\w+) \{/\2 \1/p' "$1")
}

# The public methods of a source file, as the prover names them: by their type, and that by the file that declares it.
methods() { # methods CRATE FILE
    local target name home
    while read -r target name; do
        home=$(grep -lE "^pub (struct|enum) $target " crates/"$1"/src/*.rt)
        home=${home##*/} home=${home%.rt}
        case $home in lib | main) home='' ;; esac
        printf '%s/%s.%s\n' "$home" "$target" "$name"
    done < <(awk '/^impl [A-Za-z]+ \{/ { target = $2 } /^}/ { target = "" }
        target != "" && match($0, /^    pub fn [a-z0-9_]+/) { print target, substr($0, 12, RLENGTH - 11) }' "$2")
}

# A module that its crate keeps to itself: what is public there is called inside the crate alone, by functions whose
# theorem no other answer fits, and states a result.
within() { # within CRATE MODULE
    [ -n "$2" ] && grep -qs "^mod ${2%%::*};" "crates/$1/src/lib.rt" "crates/$1/src/main.rt"
}

stated() { # stated FILE NAME
    awk -v name="$2" '$0 ~ "^ *pub fn " name "[(<]" { open = 1 }
        open && /^ +ensures/ { found = 1 }
        open && /^ *\{/ { exit }
        END { exit !found }' "$1"
}

# what C calls has another: it asks nothing
asks_nothing() { # asks_nothing CRATE MODULE NAME
    local theorems
    for theorems in crates/promises/specs/Demand1/Asks*.antt crates/promises/specs/{,Demand1/}Program*.antt; do
        grep -Eqs "^use Rattle\.$1\.specs\.contracts\.${2:+${2//::/.}.}$3 as $3(_lem)?\$" "$theorems" \
            && declared "$theorems" "${3}_asks_nothing" && return 0
    done
    return 1
}

# the functions that C calls: the exports of each archive NAME, from its crate NAME_c
declare -A exported
while read -r archive; do
    while read -r _ name; do
        exported[$archive $name]=1
    done < <(for source in crates/"$archive"_c/src/*.rt; do public "$source"; done)
done < <(sed -n 's/^\([a-z0-9_]*\):.*/\1/p' tests/exports)

# Every source file of every crate, programs too: a function that is public is looked at wherever it stands, but that of
# an archive at that of its library.
files=0 alone=0 inside=0 exceptions=0 called=0
inner=$(section 'Inner public functions')
while read -r source; do
    files=$((files + 1))
    crate=${source#crates/} crate=${crate%%/*}
    module=${source#crates/*/src/} module=${module%.rt} module=${module//\//::}
    case $module in lib | main) module='' ;; esac
    while read -r kind name; do
        [ -n "$name" ] || name=$kind kind=
        whole=$crate::${module:+$module::}$name
        if within "$crate" "$module"; then
            stated "$source" "$name" || fail "states no result: $whole"
            inside=$((inside + 1))
            continue
        fi
        if one_answer "$crate" "$module" "$name"; then
            alone=$((alone + 1))
        elif excepted "$whole"; then
            exceptions=$((exceptions + 1))
        else
            fail "no theorem that no second answer fits: $whole"
        fi
        [ -n "$kind${exported[$crate $name]-}" ] || continue
        called=$((called + 1)) exported[$crate $name]=
        asks_nothing "$crate" "$module" "$name" || fail "no theorem that it asks nothing: $whole"
    done < <(public "$source")
    while read -r name; do
        one_answer "$crate" "$module" "$name" || fail "no theorem that no second answer fits: $crate::$name"
        alone=$((alone + 1))
    done < <(conversions "$source")
    while IFS=/ read -r home name; do
        one_answer "$crate" "$home" "$name" || fail "no theorem that no second answer fits: $crate::$name"
        alone=$((alone + 1))
    done < <(methods "$crate" "$source")
    while read -r name; do
        name=$crate::${module:+$module::}$name
        grep -q "\`$name\`" <<<"$inner" || fail "asks something, and is not on the page: $name"
    done < <(asking "$source")
done < <(find crates/*/src -name '*.rt' -not -path 'crates/*_c/*' | sort)
for name in "${!exported[@]}"; do
    [ -z "${exported[$name]}" ] || fail "for C, and in no library: $name"
done

# an exception that no longer is one
while read -r name; do
    function_of "${name%%::*}" "${name##*::}" || fail "excepted, and not there: $name"
done < <(section Exceptions | sed -nE 's/^- `([a-z0-9_:]+)`: .*/\1/p')

printf '%d names, %d sentences; %d source files, %d public functions with their theorem, %d inside, %d exceptions,' \
    "$looked" "$sentences" "$files" "$alone" "$inside" "$exceptions"
printf ' %d for C; %d missing\n' "$called" "$missing"
[ "$missing" -eq 0 ] && [ "$looked" -gt 200 ] && [ "$sentences" -gt 70 ] && [ "$files" -gt 80 ] \
    && [ "$alone" -gt 90 ] && [ "$called" -gt 20 ]
