#!/usr/bin/env bash
# measure.sh SOURCE: counts the instructions of an entry, through the exported function and through the lifted Rust at SOURCE, and
# prints the tables of docs/PERFORMANCE.md. Needs cargo, valgrind and objdump. It fails where the two sides answer differently.
set -euo pipefail
cd "$(dirname "${BASH_SOURCE[0]}")/.."
source_of_rust=$(cd "$1" && pwd)
unset M68K_DIAG_ADDRESS_ERROR || true
tools/built.sh lent
python3 host/mirror.py --check
python3 oracle/lift.py "$source_of_rust" "$PWD/target/oracle/lifted/lifted.rs"
build=(cargo build -q --profile measure --offline --bin measure)
CARGO_TARGET_DIR=$PWD/target/host "${build[@]}" --manifest-path host/programs/Cargo.toml
CARGO_TARGET_DIR=$PWD/target/oracle ORACLE_LIFTED=$PWD/target/oracle/lifted "${build[@]}" --manifest-path oracle/Cargo.toml
exec python3 tools/measure.py
