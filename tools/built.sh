#!/usr/bin/env bash
# built.sh NAME ..: proves what changed of each crate NAME and of those below it, and builds it where rt does: a program is crates/NAME/out/NAME
# then, the archive of a static library crates/NAME/out/libNAME.a.
set -euo pipefail
cd "$(dirname "${BASH_SOURCE[0]}")/../crates"
for name in "$@"; do
  if [ ! -f "$name/src/main.rt" ]; then
    (cd "$name" && rt lib)
    continue
  fi
  # rt builds a program to run it: here it runs on no input, in a folder without its data, and how it ends says nothing.
  said=$(mktemp)
  (cd "$name" && rt run 2>&1 >/dev/null </dev/null | tee "$said") || true
  grep -q "^rt: running out/$name;" "$said" || { rm -f "$said"; echo "built: error: $name was not built" >&2; exit 1; }
  rm -f "$said"
done
