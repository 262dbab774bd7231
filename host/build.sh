#!/bin/sh
# Builds the Rust crate over the archive of the proved code, and the programs over it, into target/host of the repository.
# usage: build.sh [test]; with `test` all tests are run too: those of the crate and of the programs, the examples, the C header, what is lent
# under valgrind, and those of leaves/ where the oracle's lifted text and libleaves.a are there.
# Exit status 3: left out, the archive or cargo is not there; another but 0: failed.
here=$(cd "$(dirname "$0")" && pwd) || exit 1
root=$(dirname "$here")
lent=${M68K_LIB:-$root/crates/lent/out}/liblent.a
leaves=${M68K_LIB:-$root/crates/leaves/out}/libleaves.a

if ! command -v cargo >/dev/null 2>&1; then
    echo "host: left out: cargo is not there"
    exit 3
fi
if [ ! -f "$lent" ]; then
    echo "host: left out: liblent.a is not there: run rt lib in crates/lent"
    exit 3
fi
python3 "$here/mirror.py" --check || exit 1

export CARGO_TARGET_DIR="$root/target/host"
host="--release --offline --manifest-path $here/Cargo.toml --workspace"
if ! cargo build -q $host; then
    echo "host: error: the build failed"
    exit 1
fi
echo "host: built target/host/release/cases, compare and show"
[ "$1" = test ] || exit 0

if ! cargo test -q $host; then
    echo "host: error: a test failed"
    exit 1
fi
if ! RUSTDOCFLAGS='-D warnings' cargo doc -q --no-deps $host; then
    echo "host: error: the documentation has warnings"
    exit 1
fi

# The C side: the example prints what it is to print; random calls over blocks of exactly the size that is lent, a sample of them under
# valgrind, where a block has no guards and a read outside it is an error too.
if command -v gcc >/dev/null 2>&1; then
    made=$root/target/host/c
    mkdir -p "$made"
    for name in examples/entry tests/lent; do
        gcc -std=c11 -O1 -g -Wall -Wextra -Werror -I "$here/include" -o "$made/$(basename $name)" "$here/$name.c" "$lent" || exit 1
    done
    for language in '-x c -std=c99 -pedantic' '-x c -std=c17 -pedantic' '-x c++ -std=c++17 -pedantic'; do
        echo '#include "m68k.h"' | gcc $language -Wall -Wextra -Werror -fsyntax-only -I "$here/include" - || exit 1
    done
    if ! "$made/entry" | cmp - "$here/examples/entry.out" || ! "$made/lent" 200000 68010; then
        echo "host: error: a test in C failed"
        exit 1
    fi
    if ! command -v valgrind >/dev/null 2>&1; then
        echo "host: left out: valgrind is not there, so that no call is run under it"
    elif ! valgrind -q --error-exitcode=9 --leak-check=full --show-leak-kinds=all --errors-for-leak-kinds=all \
        "$made/lent" 20000 68020 exact; then
        echo "host: error: valgrind found an error"
        exit 1
    fi
else
    echo "host: left out: gcc is not there, so that nothing is tested from C"
fi

if [ ! -f "${ORACLE_LIFTED:-$root/target/oracle/lifted}/lifted.rs" ] || [ ! -f "$leaves" ]; then
    echo "host: leaves left out: the oracle's lifted text or libleaves.a (rt lib in crates/leaves) is not there"
    exit 0
fi
if ! cargo test -q --offline --manifest-path "$here/leaves/Cargo.toml"; then
    echo "host: error: a test of leaves failed"
    exit 1
fi
