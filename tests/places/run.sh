#!/usr/bin/env bash
# run.sh: holds the program `places` that `rt ci` built, and the second program, to the stored transcript, byte for
# byte; and the program alone to its messages where something outside fails.
# `expected` was written by the second program: run.sh --write writes it anew. `failures.expected` was written by hand:
# a line on standard error for each failure.
set -euo pipefail

here=$(cd "$(dirname "${BASH_SOURCE[0]}")" && pwd -P)
top=$(cd "$here/../.." && pwd -P)
work=$(mktemp -d)
trap 'rm -rf "$work"' EXIT

second() {
    cargo build --quiet --manifest-path "$top/tests/Cargo.toml" --offline --locked --release --package second --example places
    "$here/transcript.sh" "$top/tests/target/release/examples/places"
}

same() { # same NAME FILE COMMAND [WORD ..]: holds what a command prints to what is stored
    local name=$1 stored=$here/$2
    shift 2
    "$@" >"$work/out"
    diff "$stored" "$work/out" || { echo "places: $name: FAILED"; exit 1; }
    echo "places: $name: $(grep -c '^== ' "$work/out") cases as expected"
}

if [ "${1-}" = --write ]; then
    second >"$here/expected"
    exit
fi
program=("$top/tests/host.sh" run "$top/crates/places/out/places")
TURBELICUS_KIT=$("$top/tests/host.sh" kit)
export TURBELICUS_KIT
same 'the program' expected "$here/transcript.sh" "${program[@]}"
same 'the program, where something fails' failures.expected "$here/failures.sh" "${program[@]}"
same 'the second program' expected second
# the run that `rt ci` makes is the first case
"$top/tests/target/release/examples/places" "$top/examples/bright.slt" <"$top/crates/places/stdin" | cmp - "$top/crates/places/stdout"
cmp "$top/examples/bright.slt" "$top/crates/places/data/bright.slt"
