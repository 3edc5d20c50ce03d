#!/usr/bin/env bash
# transcript.sh COMMAND [WORD ..]: runs a program `places` over every case, and prints each case with what the program
# writes to standard output and whether it writes to standard error.
set -uo pipefail

top=$(cd "$(dirname "${BASH_SOURCE[0]}")/../.." && pwd -P)
work=$(mktemp -d) || exit 2
trap 'rm -rf "$work"' EXIT
line='2024-06-21 22:00:00.000 0 185400000000 0'
bright=$top/examples/bright.slt
places=("$@")

answered() { # answered NAME [WORD ..]: what is answered to standard input, by a prompt end
    printf '== %s\n' "$1"
    shift
    timeout 60 "${places[@]}" "$@" 2>"$work/error" || echo "ended with status $?"
    [ ! -s "$work/error" ] || echo '(a message on standard error)'
}

bytes() { # bytes TEXT [RECORDS]: a file of a head, and records of 24 noughts
    printf "$1"
    [ $# -lt 2 ] || head -c $((24 * $2)) /dev/zero
}

star() { # star RA DECLINATION: a record without motions
    local number bit
    for number in "$1" "$2"; do
        for bit in 0 8 16 24 32 40 48 56; do printf "\\x$(printf %02x $((number >> bit & 255)))"; done
    done
    head -c 8 /dev/zero
}

while IFS= read -r text; do
    printf '%s\n' "$text" | answered "$text" "$bright"
    printf '%s\n' "$text" | answered "$text, for people" "$bright" sexagesimal
done <"$top/tests/places/lines.in"

# with pressure and temperature, and with a pressure that is refused: 14 after 0 to 4 and 6
while IFS= read -r text; do
    printf '%s\n' "$text" | answered "$text, 1013.2 hPa, -10.5 degrees" "$bright" 1013.2 -10.5
    printf '%s\n' "$text" | answered "$text, 1100.1 hPa" "$bright" 1100.1 0
done <"$top/tests/places/lines.in"

# both ends of both ranges, and one beyond
while read -r pressure temperature; do
    name="$pressure hPa, $temperature degrees"
    echo "$line" | answered "$name" "$bright" "$pressure" "$temperature"
    echo "$line" | answered "$name, for people" "$bright" sexagesimal "$pressure" "$temperature"
done <<'ENDS'
500 0
499.9 0
1100 0
1100.1 0
1013 -50
1013 -50.1
1013 50
1013 50.1
500 50
1100 -50
ENDS

# forms of a word, as pressure and as temperature: those that are one, and those that are none
for word in 0 00 0000 -0 0.0 -0.0 0.5 -0.5 0010 0010.5 9999.9 -9999.9; do
    echo "$line" | answered "pressure $word" "$bright" "$word" 0
    echo "$line" | answered "temperature $word" "$bright" 1013 "$word"
done
for word in '' - . -. .5 -.5 5. -5. 5.55 10.10 00000 10000.5 +5 --5 -5- 5- 1,5 1.a a.1 a 1..5 1.2.3 ' 5' '5 ' 5e1 \
    0x5 nan inf 1_0 999.99 sexagesimal; do
    echo "$line" | answered "pressure '$word'" "$bright" "$word" 0
    echo "$line" | answered "temperature '$word'" "$bright" 1013 "$word"
    echo "$line" | answered "temperature '$word', for people" "$bright" sexagesimal 1013 "$word"
done

# standard input
printf '%s' "$line" | answered 'a line without its end' "$bright"
printf '%s\nmore\n' "$line" | answered 'a second line' "$bright"
answered 'no line' "$bright" </dev/null
head -c 10000000 /dev/zero | answered 'ten million noughts for a line' "$bright"

# files: 9, 10, 5, and none of them
try() { # try NAME: the file that stands in $work/file
    echo "$line" | answered "$1" "$work/file"
    echo 'no line' | answered "$1, and a line of another form" "$work/file"
}
: >"$work/file"; try 'an empty file'
bytes 'SLT\1\0\0' >"$work/file"; try '6 bytes'
bytes 'SLU\1\0\0\0' >"$work/file"; try 'another mark'
bytes 'SLT\2\0\0\0' >"$work/file"; try 'version 2'
bytes 'SLT\1\0\0\0' >"$work/file"; try 'no entry'
bytes 'SLT\1\0\1\0' 1 >"$work/file"; try 'one entry'
bytes 'SLT\1\0\100\0' 64 >"$work/file"; try '64 entries'
bytes 'SLT\1\0\101\0' 65 >"$work/file"; try '65 entries'
bytes 'SLT\1\0\1\0' 2 >"$work/file"; try 'a record too many'
bytes 'SLT\1\0\2\0' 1 >"$work/file"; try 'a record too few'
{ bytes 'SLT\1\0\1\0' 1; printf x; } >"$work/file"; try 'a byte too many'
{ bytes 'SLT\1\0\100\0' 64; printf x; } >"$work/file"; try 'a byte past 64 entries'
{ bytes 'SLT\1\0\2\0' 1; head -c 24 /dev/zero | tr '\0' '\377'; } >"$work/file"; try 'a star that is refused'
{ bytes 'SLT\1\0\100\0' 64; head -c 100000000 /dev/zero; } >"$work/file"; try '100 million bytes'
head -c 100000000 /dev/zero >"$work/file"; try '100 million noughts'
# and 14 after them
bytes 'SLU\1\0\0\0' >"$work/file"; echo "$line" | answered 'another mark, 0 hPa' "$work/file" 0 0
bytes 'SLT\1\0\101\0' 65 >"$work/file"; echo "$line" | answered '65 entries, 0 hPa' "$work/file" 0 0
{ bytes 'SLT\1\0\2\0' 1; head -c 24 /dev/zero | tr '\0' '\377'; } >"$work/file"
echo "$line" | answered 'a star that is refused, 0 hPa' "$work/file" 0 0
bytes 'SLT\1\0\0\0' >"$work/file"; echo "$line" | answered 'no entry, 0 hPa' "$work/file" 0 0
echo "$line" | answered 'no entry, 1000 hPa' "$work/file" 1000 0
bytes 'SLT\1\0\100\0' 64 >"$work/file"; echo "$line" | answered '64 entries, 1000 hPa' "$work/file" 1000 0

# stars that stand exactly at the zenith of the first latitude and at both poles of date, and an ordinary one: a dash
# for an angle that there is not. Over the poles those two have neither.
{ bytes 'SLT\1\0\4\0'; star 476318159297 180659983868; star 10315798983 323471053674; star 643579742410 -323472318850
  star 0 0; } >"$work/file"
for latitude in 180315000000 180316000000 324000000000 -324000000000; do
    text="2026-03-20 20:00:00.000 0 $latitude 51915000000"
    echo "$text" | answered "without an angle, $text" "$work/file"
    echo "$text" | answered "without an angle, $text, for people" "$work/file" sexagesimal
    echo "$text" | answered "without an angle, $text, 1013.2 hPa" "$work/file" 1013.2 -10.5
    echo "$text" | answered "without an angle, $text, 1013.2 hPa, for people" "$work/file" sexagesimal 1013.2 -10.5
done
rm "$work/file"

# the shell
echo "$line" | answered 'no argument'
echo "$line" | answered 'an empty argument' ''
echo "$line" | answered 'no such file' "$work/none"
echo "$line" | answered 'a directory' "$work"
echo "$line" | answered 'another word' "$bright" degrees
echo "$line" | answered 'half the word' "$bright" sexagesima
echo "$line" | answered 'three words' "$bright" sexagesimal now
echo "$line" | answered 'pressure alone' "$bright" 1013
echo "$line" | answered 'pressure alone, for people' "$bright" sexagesimal 1013
echo "$line" | answered 'the word last' "$bright" 1013 0 sexagesimal
echo "$line" | answered 'another word, pressure and temperature' "$bright" degrees 1013 0
echo "$line" | answered 'a word too many' "$bright" sexagesimal 1013 0 0
echo "$line" | answered 'a long name' "$(head -c 5000 /dev/zero | tr '\0' a)"
