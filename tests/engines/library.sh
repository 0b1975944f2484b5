#!/usr/bin/env bash
# Plays calls of the library in crates/library_play and in node, and compares the answers: the rows of the program's own stdin, and
# random lists. Skipped where node isn't there.
set -eu
cd "$(dirname "$0")/../.."
command -v node >/dev/null || { echo "library: skipped, no node"; exit 0; }
work=$(mktemp -d)
trap 'rm -rf "$work"' EXIT
program="$PWD/crates/library_play/out/library_play"
if [ ! -x "$program" ]; then
  (cd crates/library_play && rt run <stdin >/dev/null 2>&1) || exit 1
fi
play() { # NAME LIST
  "$program" <"$2" >"$work/got"
  node tests/engines/library.js compare "$2" "$work/got" >"$work/said" || exit 1
  echo "library: $1: $(cat "$work/said")"
}
play rows crates/library_play/stdin
for realm in 5 6; do
  node tests/engines/library.js list "$realm" "$realm" 2000 >"$work/list"
  play "realm $realm" "$work/list"
done
