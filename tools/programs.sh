#!/usr/bin/env bash
# programs.sh: builds the programs over what is proved already and runs each as `rt ci` does, on its file stdin, in its folder data: it must write
# what its file stdout has.
set -euo pipefail
cd "$(dirname "${BASH_SOURCE[0]}")/.."
root=$PWD
for main in crates/*/src/main.rt; do
  crate=${main%/src/main.rt} name=$(basename "${main%/src/main.rt}")
  tools/built.sh "$name"
  input=/dev/null place=$crate
  [ ! -f "$crate/stdin" ] || input=$crate/stdin
  [ ! -d "$crate/data" ] || place=$crate/data
  (cd "$place" && exec "$root/$crate/out/$name") <"$input" | cmp - "$crate/stdout" || { echo "programs: error: $name did not write its file stdout" >&2; exit 1; }
  echo "programs: $name wrote what its file stdout has"
done
