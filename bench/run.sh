#!/usr/bin/env bash
# `make bench`: the module beside ERFA's chain in double floats, on the same dates, sites and stars in the same run.
# Instructions are counted by callgrind, inside the measured function alone; places a second are the best of many turns.
# It prints what it found and writes docs/BENCH.md. It fails where the answers are apart, and not at a missed target.
set -euo pipefail
cd "$(dirname "${BASH_SOURCE[0]}")/.."

out=target/bench
page=docs/BENCH.md
tolerance=0.01 # arcseconds

# need COMMAND PACKAGE
need() {
    command -v "$1" >/dev/null || { echo "make bench: no $1 here; on Debian: apt-get install $2" >&2; exit 1; }
}

build() {
    mkdir -p $out
    tests/archives.sh module tests_lists
    cc -std=gnu11 -O2 -Wall -Wextra -Wpedantic -Werror -o $out/bench bench/main.c bench/erfa_chain.c \
        target/staticlib/libmodule.a target/staticlib/libtests_lists.a -lerfa -lm -Wl,-z,now
}

# instructions WORK FUNCTION: those of one place, counted while FUNCTION runs
instructions() {
    local log=$out/$1.log
    valgrind --tool=callgrind --callgrind-out-file="$out/$1.callgrind" --toggle-collect="$2" --log-file="$log" \
        $out/bench count "$1" >"$out/$1.places"
    awk -v places="$(cat "$out/$1.places")" '/Collected/ { printf "%.0f\n", $NF / places }' "$log"
}

# speed WORK: places a second
speed() {
    awk -v work="$1" '$1 == work { print $2 }' $out/speed
}

# row WORDS MODULE ERFA: a row of the page; the ratio is the module's work over ERFA's, in time as in instructions
row() {
    awk -v words="$1" -v module="$2" -v erfa="$3" 'BEGIN {
        printf "| %s | %d | %d | %.2f |", words, module, erfa, (words ~ /a second/) ? erfa / module : module / erfa }'
}

# target MODULE ERFA MOST: whether the ratio is at most MOST
target() {
    awk -v module="$1" -v erfa="$2" -v most="$3" 'BEGIN {
        printf " at most %.1f: %s |\n", most, (module <= most * erfa) ? "met" : "MISSED" }'
}

machine() {
    local name
    name=$(lscpu | sed -n 's/^Model name: *//p' | head -n 1)
    echo "$(uname -m)${name:+, $name}"
}

# shares WORK: where its instructions go, by what callgrind knows as functions; what is inlined counts for its caller, and
# the parts that callgrind makes of a function, as f and f'2, are one
shares() {
    callgrind_annotate "$out/$1.callgrind" |
        sed -n "s/^ *[0-9,]* ( *\([0-9.]*\)%)  .*???:\([^ ']*\)['0-9]* .*/\1 \2/p" |
        awk '{ share[$2] += $1 } END { for (name in share) printf "%.2f %s\n", share[name], name }' |
        sort -rn | sed 's/^\([0-9.]*\) \(.*\)/| `\2` | \1 % |/'
}

# rows WHAT WORK OURS THEIRS MOST: instructions beside their target, and places a second
rows() {
    local ours theirs
    ours=$(instructions "module_$2" "$3")
    theirs=$(instructions "erfa_$2" "$4")
    row "$1: instructions" "$ours" "$theirs"
    target "$ours" "$theirs" "$5"
    row "$1: a second" "$(speed "module_$2")" "$(speed "erfa_$2")"
    echo " none |"
}

write_page() {
    cat <<END
# How fast it is

\`make bench\` writes this page: the proved code, as \`tests/archives.sh\` writes it for C, beside ERFA in double floats,
in one run, on the same 4,096 places: 64 dates and sites, 64 stars, all drawn by lot. The answers of the two are at most
$1″ apart (allowed: $tolerance″). Kit: \`$(rt version)\`.

- One place is \`turbelicus_place\`; a star of a night is a 64th of a night list of 64, whose instant is worked once.
- ERFA's chain is \`bench/erfa_chain.c\`: \`eraCal2jd\`, \`eraDat\`, \`eraPrec76\`, the ten largest terms of nutation,
  \`eraObl80\`, \`eraNumat\`, \`eraGmst82\`, aberration of an elliptic orbit, turns by matrices, \`eraC2s\`; Debian's
  library.
- Instructions are counted by callgrind while the function runs; places a second are the best of 60 turns.
- The ratio is the module's work over ERFA's: above 1 the module does more, or is slower.

Machine: $(machine).

| | module | ERFA | ratio | target |
|-|-|-|-|-|
END
    rows "one place" places turbelicus_place erfa_place 2.0
    rows "a star of a night" nights tests_night_list erfa_night 3.0
    cat <<END

## Where the instructions go

What the compiler has put into a function's caller counts for the caller.

| one place, in | share |
|-|-|
$(shares module_places)

| a star of a night, in | share |
|-|-|
$(shares module_nights)
END
}

need cc gcc
need valgrind valgrind
echo '#include <erfa.h>' | cc -E -x c - >/dev/null 2>&1 ||
    { echo 'make bench: no erfa.h here; on Debian: apt-get install liberfa-dev' >&2; exit 1; }

build
apart=$($out/bench agree)
awk -v apart="$apart" -v most=$tolerance 'BEGIN { exit !(apart <= most) }' ||
    { echo "make bench: the two chains are $apart arcseconds apart, more than $tolerance" >&2; exit 1; }
$out/bench speed >$out/speed
write_page "$apart" >$out/page
cp $out/page $page
cat $page
