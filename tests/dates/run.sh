#!/bin/sh
# Runs the program `dates` that `rt ci` built, over crates/dates/stdin, and compares what it prints, byte for byte.
# crates/dates/stdout was worked out apart from the program, from documents 01 and 02 and another calendar: both sides
# of each added second, the ends of the stretch and their neighbours, numbers of every length, lines of another form.
# Then: empty input, a line longer than any buffer, 100,000 lines; an input cut in odd ways; what cannot be read or
# written.
set -eu

here=$(cd "$(dirname "$0")" && pwd -P)
name=dates
line='536500868184'
answer='2016-12-31 23:59:60.000'
. "$here/../line_program.sh"

answers() { # answers NAME INPUT EXPECTED: the one is answered by the other; in both `\n` is a line end
    printf '%b' "$2" | run >"$work/out"
    printf '%b' "$3" >"$work/expected"
    same "$1" "$work/expected"
}

# ---- what is printed

run <"$stored/stdin" >"$work/out"
same "the stored input" "$stored/stdout"

run </dev/null >"$work/out"
: >"$work/header"
same "empty input" "$work/header"

j2000='2000-01-01 11:58:55.816'
answers "no line end at the end" '0\n536500869183' "$j2000\n2016-12-31 23:59:60.999\n"
answers "empty lines" '\n\n0\n\n' "refused 0\nrefused 0\n$j2000\nrefused 0\n"
answers "a carriage return before the line end" '0\r\n0\n' "refused 0\n$j2000\n"
answers "a plus" '+0\n' 'refused 0\n'
answers "a blank before, and one after" ' 0\n0 \n' 'refused 0\nrefused 0\n'
answers "a minus alone, and two" '-\n--1\n' 'refused 0\nrefused 0\n'
answers "a byte 0" '\0000\n0\n' "refused 0\n$j2000\n"
answers "nought with a minus, and with noughts" '-0\n000\n-00\n' "$j2000\n$j2000\n$j2000\n"
answers "18 digits" '000536500868184000\n999999999999999999\n-000000000000000001\n' \
    "refused 20\nrefused 20\n2000-01-01 11:58:55.815\n"
answers "19 digits" '0000000000000000000\n-1000000000000000000\n9223372036854775807\n' \
    'refused 0\nrefused 0\nrefused 0\n'

{ head -c 200000 /dev/zero | tr '\0' 7; echo; echo "$line"; } | run >"$work/out"
printf 'refused 0\n%s\n' "$answer" >"$work/expected"
same "a line of 200,000 bytes" "$work/expected"

# more than the 32 bytes that are kept of a line
printf '%040d\n' 0 | run >"$work/out"
echo 'refused 0' >"$work/expected"
same "a line of 40 noughts" "$work/expected"

lines "$line" 100000 | run >"$work/out"
lines "$answer" 100000 >"$work/expected"
same "100,000 lines" "$work/expected"

# ---- cuts: a read takes 1,024 bytes at most, or what a pipe holds by then

dd bs=1 <"$stored/stdin" 2>/dev/null | run >"$work/out"
same "the stored input, byte by byte" "$stored/stdout"

{ printf '%s' -8836; sleep 1; printf 55957816; sleep 1; printf '\n%s' "$line"; } | run >"$work/out"
printf '1972-01-01 00:00:00.000\n%s\n' "$answer" >"$work/expected"
same "a line in three parts, and one without its end" "$work/expected"

# 78 lines of 13 bytes, and of the next none of its bytes, 9, 10 or 11 of them, all but its end, or all
lines "$line" 79 >"$work/lines"
cut_at 1014 78
cut_at 1023 78 '2000-01-07 17:00:36.684'
cut_at 1024 78 '2000-03-03 14:15:44.497'
cut_at 1025 78 '2001-09-13 10:47:02.634'
for size in 1026 1027; do cut_at $size 79; done

in_turn

# ---- what cannot be read or written

failures
