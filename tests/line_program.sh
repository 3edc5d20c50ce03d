# What the scripts of `times` and `dates` have in common, read by each: it sets `name` to that of its program first,
# `line` to a line of its input and `answer` to what that is answered by, and writes to $work/header what the program
# prints before any answer, which may be nothing.

top=$(cd "$here/../.." && pwd -P)
program=$top/crates/$name/out/$name
TURBELICUS_KIT=$("$top/tests/host.sh" kit)
export TURBELICUS_KIT
stored=$top/crates/$name
work=$(mktemp -d)
trap 'rm -rf "$work"' EXIT

# what the program says goes to $work/err, whatever it prints to $work/out, or where a case sends it
run() { "$top/tests/host.sh" run "$program" "$@" 2>"$work/err"; }

failed() { echo "$name: $1: FAILED"; exit 1; }

same() { # same NAME EXPECTED: $work/out is as a file, and nothing was said
    cmp "$work/out" "$2" || failed "$1"
    [ ! -s "$work/err" ] || failed "$1"
    echo "$name: $1: as expected"
}

soon() { # soon NAME EXPECTED: as `same`, within ten seconds
    for second in 1 2 3 4 5 6 7 8 9 10; do
        ! cmp -s "$work/out" "$2" || break
        sleep 1
    done
    same "$1" "$2"
}

said() { # said NAME BEGINNING: one line was said, which begins so, and nothing printed
    [ ! -s "$work/out" ] || failed "$1"
    [ "$(wc -l <"$work/err")" -eq 1 ] || failed "$1"
    case $(cat "$work/err") in
    "$2"?*) echo "$name: $1: said" ;;
    *) failed "$1" ;;
    esac
}

lines() { yes "$1" | head -n "$2"; } # lines TEXT COUNT

cut_at() { # cut_at SIZE COUNT [LAST]: so many bytes of $work/lines are answered so many times, and the last line so
    head -c "$1" "$work/lines" >"$work/in"
    run <"$work/in" >"$work/out"
    { cat "$work/header"; lines "$answer" "$2"; [ $# -eq 2 ] || echo "$3"; } >"$work/expected"
    same "$1 bytes" "$work/expected"
}

# A caller may wait for the header before it writes a line, and for the answer before it writes another.
in_turn() {
    mkfifo "$work/fifo"
    : >"$work/out"
    run <"$work/fifo" >"$work/out" &
    exec 3>"$work/fifo"
    [ ! -s "$work/header" ] || soon "the header before the first line" "$work/header"
    echo "$line" >&3
    { cat "$work/header"; echo "$answer"; } >"$work/expected"
    soon "the answer before the next line" "$work/expected"
    exec 3>&-
    wait
    same "and nothing more at the end" "$work/expected"
}

# What cannot be read or written gets one line on standard error.
failures() {
    echo "$line" >"$work/lines"

    run </ >"$work/out"
    said "a folder as standard input" "$name: standard input: "

    run 0>"$work/in" >"$work/out"
    said "standard input open for writing alone" "$name: standard input: "

    : >"$work/out"
    run <"$work/lines" >/dev/full
    said "a full device as standard output" "$name: standard output: "

    run <"$work/lines" 1<"$work/in"
    said "standard output open for reading alone" "$name: standard output: "

    run any <"$work/lines" >"$work/out"
    said "an argument" "usage: $name"

    run >"$work/out" <&-
    said "a closed standard input" "$name: standard input: "
    run <"$work/lines" >&-
    said "a closed standard output" "$name: standard output: "
}
