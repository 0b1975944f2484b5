#!/usr/bin/env bash
# Plays random lists of property operations in node and in the heap of crates/es_heap, and compares the answers.
# Skipped where node isn't there.
set -eu
cd "$(dirname "$0")/../.."
command -v node >/dev/null || { echo "objects: skipped, no node"; exit 0; }
work=$(mktemp -d)
trap 'rm -rf "$work"' EXIT
program="$PWD/crates/objects_play/out/objects_play"
if [ ! -x "$program" ]; then
  (cd crates/objects_play && rt run <stdin >/dev/null 2>&1) || { echo "objects: the program could not be built"; exit 1; }
fi
played=0
for seed in 1 2 3 4 5 6 7 8 9 10 11 12 13 14 15 16 17 18 19 20; do
  node tests/engines/objects.js list "$seed" 400 >"$work/list"
  node tests/engines/objects.js answers "$seed" 400 >"$work/wanted"
  "$program" <"$work/list" >"$work/got" 2>"$work/err" || { cat "$work/err"; exit 1; }
  if ! diff "$work/wanted" "$work/got" >"$work/diff"; then
    echo "objects: seed $seed differs"; head -5 "$work/diff"; exit 1
  fi
  played=$((played + 1))
done
echo "objects: $played lists agree with node"
