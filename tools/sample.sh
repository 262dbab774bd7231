#!/usr/bin/env bash
# sample.sh SOURCE [--check|--record]: builds the oracle from the Rust at SOURCE and makes the recorded answers of crates/replay anew
# from their seed, in target/sample: sample.bin, spoiled.bin and README.txt. With --check it fails unless all are, byte for byte, those in
# crates/replay/data; with --record it puts them there.
set -euo pipefail
cd "$(dirname "${BASH_SOURCE[0]}")/.."
source_of_rust=$(cd "$1" && pwd); what=${2:-}
seed=68000 accepted=5000 refused=1000 returns=420 refused_returns=180 lists=60
data=crates/replay/data

case $what in '' | --check | --record) ;; *) echo "usage: tools/sample.sh SOURCE [--check|--record]" >&2; exit 2 ;; esac
oracle/build.sh "$source_of_rust"
rm -rf target/sample
mkdir -p target/sample
python3 oracle/sample.py $seed $accepted $refused $returns $refused_returns $lists target/sample/sample.bin
for file in sample.bin spoiled.bin README.txt; do
  if [ "$what" = --record ]; then
    cp "target/sample/$file" "$data/$file"
  elif [ "$what" = --check ] && ! cmp "target/sample/$file" "$data/$file"; then
    echo "sample: error: $data/$file is not what the oracle gives: tools/sample.sh SOURCE --record puts it there" >&2
    exit 1
  fi
done
[ "$what" != --check ] || echo "sample: $data is what the oracle gives"
