#!/bin/sh
# Builds and runs C programs over the archives of `rt lib`, which hold x86-64 code, and runs the programs that rt built:
# with the kit's compiler, linker and C library. Nothing of the machine's own C is used.
#
#   host.sh build OUT SOURCE.c [ARCHIVE.a ..]
#   host.sh run PROGRAM [WORD ..]
#   host.sh header HEADER.h
#   host.sh kit
#
# TURBELICUS_KIT is the kit's folder, for scripts that run it often: `host.sh kit` prints it.
set -eu

here=$(cd "$(dirname "$0")" && pwd -P)
kit=${TURBELICUS_KIT:-$(cd "$(dirname "$(rt doc)")" && pwd -P)}
tools=$kit/toolchain/bin
lib=$kit/toolchain/lib

build() {
    out=$1 source=$2
    shift 2
    mkdir -p "$(dirname "$out")"
    # the kit's compiler brings no headers: c/headers has the few that are included
    "$tools/clang" --target=x86_64-unknown-linux-gnu -std=c11 -O2 -fPIC -Wall -Wextra -Wpedantic -Werror \
        -nostdinc -isystem "$here/c/headers" -I "$here/../include" -c "$source" -o "$out.o"
    # whole archives: the driver names functions weakly, and a weak name alone takes nothing out of an archive
    "$tools/ld.lld" -pie -dynamic-linker /lib64/ld-linux-x86-64.so.2 -o "$out" \
        "$lib/Scrt1.o" "$lib/crti.o" "$lib/crtbeginS.o" "$out.o" --whole-archive "$@" --no-whole-archive \
        "$lib/libc.so.6" "$lib/ld-linux-x86-64.so.2" "$lib/libc_nonshared.a" "$lib/libgcc.a" "$lib/crtendS.o" "$lib/crtn.o"
}

run() {
    exec "$lib/ld-linux-x86-64.so.2" --library-path "$lib" "$@"
}

# The header by itself, as C11 and as C++; included twice.
header() {
    for language in c c++; do
        standard=-std=c11
        [ $language = c ] || standard=-std=c++11
        printf '#include "%s"\n#include "%s"\n' "$1" "$1" | "$tools/clang" --target=x86_64-unknown-linux-gnu \
            -x $language $standard -Wall -Wextra -Wpedantic -Werror -nostdinc -isystem "$here/c/headers" -fsyntax-only -
    done
}

kit() {
    printf '%s\n' "$kit"
}

usage() {
    sed -n 's/^#   /usage: /p' "$0" >&2
    exit 2
}

case ${1-} in
build) [ $# -ge 3 ] || usage ;;
run) [ $# -ge 2 ] || usage ;;
header) [ $# -eq 2 ] || usage ;;
kit) [ $# -eq 1 ] || usage ;;
*) usage ;;
esac
"$@"
