#!/usr/bin/env bash
# compare.sh SOURCE SEED COUNT [LISTS]: builds the oracle from the Rust at SOURCE and the archive of the proved code, runs the tests of
# oracle/ and host/, and compares the two:
# the leaf functions on random records, the examples, then COUNT generated cases, refused ones too, and LISTS nests: lists of
# entries, returns and handlers whose walk and returns are held to the book. Any difference fails; how many calls went the fast way is said.
set -euo pipefail
cd "$(dirname "${BASH_SOURCE[0]}")/.."
source_of_rust=$(cd "$1" && pwd); seed=$2; count=$3; lists=${4:-0}
unset M68K_DIAG_ADDRESS_ERROR || true
# The archives are made beside the oracle.
tools/built.sh lent ways leaves & archives=$!
oracle/build.sh test "$source_of_rust"
wait $archives
python3 host/mirror.py --check
host/build.sh test
# Once more with the archive that says which way a call goes.
CARGO_TARGET_DIR=$PWD/target/host cargo build -q --release --offline --manifest-path host/programs/Cargo.toml --features ways --bin compare
target/host/release/compare --file oracle/examples.txt
target/host/release/compare --seed "$seed" --count "$count"
if [ "$lists" -gt 0 ]; then
  target/host/release/compare --seed "$seed" --nests "$lists"
fi
