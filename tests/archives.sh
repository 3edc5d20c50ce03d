#!/usr/bin/env bash
# archives.sh [NAME ..]: proves and writes the archives that C links, target/staticlib/libNAME.a, from the static
# libraries crates/NAME_c: those named, or all of tests/exports.
set -euo pipefail
cd "$(dirname "${BASH_SOURCE[0]}")/.."

[ $# -gt 0 ] || set -- $(sed -n 's/^\([a-z0-9_]*\):.*/\1/p' tests/exports)
mkdir -p target/staticlib
for name in "$@"; do
    if ! (cd "crates/${name}_c" && rt lib) >"target/staticlib/$name.log" 2>&1; then
        cat "target/staticlib/$name.log"
        exit 1
    fi
    cp "crates/${name}_c/out/lib${name}_c.a" "target/staticlib/lib$name.a"
    grep '^logic=' "target/staticlib/$name.log" | tail -n 1 | sed "s/^/lib$name.a: /"
done
