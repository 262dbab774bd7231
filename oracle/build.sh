#!/bin/sh
# Lifts the Rust and builds the oracle into target/oracle of the repository.
# usage: build.sh [test] [SRC_DIR]; with `test` the papers' instances and the examples are run too.
# Exit status 3: left out, the Rust source or cargo is not there; another but 0: failed.
here=$(cd "$(dirname "$0")" && pwd) || exit 1
target=$(dirname "$here")/target/oracle
test=no
if [ "$1" = test ]; then
    test=yes
    shift
fi
src=${1:-$here/../../shared/docs/src}

if ! command -v cargo >/dev/null 2>&1; then
    echo "oracle: left out: cargo is not there"
    exit 3
fi
python3 "$here/lift.py" "$src" "$target/lifted/lifted.rs" || exit $?

export ORACLE_LIFTED="$target/lifted" CARGO_TARGET_DIR="$target"
if ! cargo build -q --release --offline --manifest-path "$here/Cargo.toml"; then
    echo "oracle: error: the build failed"
    exit 1
fi
echo "oracle: built target/oracle/release/oracle"
if [ "$test" = yes ] && ! python3 "$here/lift_test.py" -q; then
    echo "oracle: error: a test of the lifting failed"
    exit 1
fi
if [ "$test" = yes ] && ! cargo test -q --release --offline --manifest-path "$here/Cargo.toml"; then
    echo "oracle: error: a test failed"
    exit 1
fi
