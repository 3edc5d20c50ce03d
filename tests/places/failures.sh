#!/usr/bin/env bash
# failures.sh COMMAND [WORD ..]: runs a program `places` where something outside fails, and prints each case with what
# it writes to standard output and, after `2> `, to standard error.
set -uo pipefail
export LC_ALL=C

top=$(cd "$(dirname "${BASH_SOURCE[0]}")/../.." && pwd -P)
work=$(mktemp -d) || exit 2
trap 'rm -rf "$work"' EXIT
line='2024-06-21 22:00:00.000 0 185400000000 0'
bright=$top/examples/bright.slt
printf 'SLT\1\0\1\0' >"$work/one"
head -c 24 /dev/zero >>"$work/one"
echo "$line" >"$work/line"
mkdir "$work/folder"
cd "$work" || exit 2
places=("$@")

failing() { # failing NAME [WORD ..]: one run, with the standard input and output of the call
    printf '== %s\n' "$1" >&3
    shift
    timeout 60 "${places[@]}" "$@" 2>error || echo "ended with status $?" >&3
    sed 's/^/2> /' error >&3
}

{
    # standard input
    failing 'standard input is a folder' one <folder
    failing 'standard input is closed' one <&-
    failing 'standard input is open for writing alone' one 0>written
    failing 'a folder, and the file is refused' line <folder

    # standard output
    failing 'standard output is closed' one <line >&-
    failing 'standard output is full' one <line >/dev/full
    failing 'standard output is full, and much is written' "$bright" <line >/dev/full
    failing 'standard output is full, and a refusal' line <line >/dev/full

    # the file
    failing 'no such file' none <line
    failing 'a folder for a file' folder <line
    failing 'a name of no bytes' '' <line
    failing 'a name of 5,000 bytes' "$(head -c 5000 /dev/zero | tr '\0' a)" <line
    failing 'no such file, and standard input is closed' none <&-

    # the words
    failing 'no word' <line
    failing 'another word' one degrees <line
    failing 'half the word' one sexagesima <line
    failing 'a word of 5,000 bytes' one "$(head -c 5000 /dev/zero | tr '\0' a)" <line
    failing 'three words' one sexagesimal now <line
    failing 'a temperature of 5,000 bytes' one 1013 "$(head -c 5000 /dev/zero | tr '\0' 1)" <line

    # none of these: what follows the line is left for whoever reads on
    { failing 'two lines' one && cat; } < <(cat line; echo 'the second line')
} 3>&1
