#!/usr/bin/env bash
# toolchain.sh: whether rt is the version that the proofs were checked with, which the file `toolchain` names as `rt version` prints it.
# Prints nothing if it is. If it is another, prints a line that names both: a proof that fails may then fail for that alone.
# Exit status 1: rt is not there, and a line says so.
set -euo pipefail
pinned=$(cat "$(dirname "${BASH_SOURCE[0]}")/../toolchain")
command -v rt >/dev/null || { echo 'rt, the Rattle toolchain, is not there; everything is proved and built with it'; exit 1; }
found=$(rt version 2>&1) || found="unknown ($found)"
[ "$found" = "$pinned" ] || echo "warning: rt is '$found', but the proofs were checked with '$pinned', which the file toolchain names"
