#!/usr/bin/env bash
# sessions.sh SOURCE SEED COUNT: builds the oracle from the Rust at SOURCE and the proved session program, and compares what the two
# print on COUNT random sessions, byte for byte; some of the input is fed in pieces too, byte by byte among them. Exit status 1: they
# differ, and the first line that does is shown with the session that led to it; 2: nothing was compared. SESSION names another
# program (with its words) to hold to the oracle; nothing is built for it.
# sessions.sh SOURCE --record|--check: the recorded sessions of crates/session: stdin is oracle/sessions.txt and then random sessions,
# stdout the oracle's answers. --record writes both, --check fails unless they are, byte for byte, what is there.
set -euo pipefail
usage() { echo "usage: tools/sessions.sh SOURCE SEED COUNT | SOURCE --record|--check" >&2; exit 2; }
[ $# -ge 2 ] || usage
source_of_rust=$(cd "$1" && pwd) || usage
cd "$(dirname "${BASH_SOURCE[0]}")/.."
crate=crates/session made=target/sessions
recorded_seed=68010 recorded_count=400
oracle=target/oracle/release/oracle

case $#:$2 in
  3:*) ;;
  2:--record | 2:--check) ;;
  *) usage ;;
esac
oracle/build.sh "$source_of_rust"

if [ $# = 3 ]; then
  if [ -z "${SESSION:-}" ]; then
    tools/built.sh session
    SESSION=crates/session/out/session
  fi
  exec "$oracle" against "$SESSION" "$2" "$3"
fi

mkdir -p "$made" "$crate"
"$oracle" sessions oracle/sessions.txt $recorded_seed $recorded_count >"$made/stdin"
"$oracle" session <"$made/stdin" >"$made/stdout"
for file in stdin stdout; do
  if [ "$2" = --record ]; then
    cp "$made/$file" "$crate/$file"
  elif ! cmp "$made/$file" "$crate/$file"; then
    echo "sessions: error: $crate/$file is not what the oracle gives: tools/sessions.sh SOURCE --record puts it there" >&2
    exit 1
  fi
done
echo "sessions: $crate/stdin and stdout are what the oracle gives"
