#!/bin/sh
# Runs the program `times` that `rt ci` built, over document 01's sample and over long.in, and compares what it
# prints, byte for byte. long.out was worked out apart from the program, from document 01 and another calendar.
# Then: empty input, a line longer than any buffer, 100,000 lines; an input cut in odd ways; what cannot be read or
# written.
set -eu

here=$(cd "$(dirname "$0")" && pwd -P)
name=times
line='2000-01-01 12:00:00.000 0'
answer='0 0 64184'
. "$here/../line_program.sh"

# ---- what is printed

run <"$stored/stdin" >"$work/out"
same "the sample of document 01" "$stored/stdout"

run <"$here/long.in" >"$work/out"
same "long.in" "$here/long.out"

run </dev/null >"$work/out"
echo 'day ut tt' >"$work/header"
same "empty input" "$work/header"

{ head -c 200000 /dev/zero | tr '\0' 7; echo; echo "$line"; } | run >"$work/out"
printf 'day ut tt\nrefused 0\n%s\n' "$answer" >"$work/expected"
same "a line of 200,000 bytes" "$work/expected"

lines '2016-12-31 23:59:60.500 -400' 100000 | run >"$work/out"
{ cat "$work/header"; lines '6209 536500800100 536500868684' 100000; } >"$work/expected"
same "100,000 lines" "$work/expected"

# ---- cuts: a read takes 1,024 bytes at most, or what a pipe holds by then

dd bs=1 <"$here/long.in" 2>/dev/null | run >"$work/out"
same "long.in, byte by byte" "$here/long.out"

{ printf '2000-01-01 12:00'; sleep 1; printf ':00.000 0'; sleep 1; printf '\n%s' "$line"; } | run >"$work/out"
{ cat "$work/header"; lines "$answer" 2; } >"$work/expected"
same "a line in three parts, and one without its end" "$work/expected"

# 39 lines of 26 bytes, 10 bytes of the next, or all of it but its end
lines "$line" 40 >"$work/lines"
cut_at 1014 39
for size in 1023 1024 1025; do cut_at $size 39 'refused 0'; done
for size in 1039 1040; do cut_at $size 40; done

in_turn

# ---- what cannot be read or written

failures
