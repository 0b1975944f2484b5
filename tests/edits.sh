#!/usr/bin/env bash
# Tries each edit of a crate that its proofs must refuse, also those in must-fail-slow/, which the gate leaves out for their time: in a
# copy, so that nothing here changes. Usage: tests/edits.sh CRATE
set -eu
[ $# -eq 1 ] || { echo 'Usage: tests/edits.sh CRATE' >&2; exit 2; }
cd "$(dirname "$0")/.."
copy=$(mktemp -d)
trap 'rm -rf "$copy"' EXIT
tar -c --exclude=out crates crates.txt HANDLES | tar -x -C "$copy"
slow="$copy/crates/$1/must-fail-slow"
if [ -d "$slow" ]; then
  mkdir -p "$copy/crates/$1/must-fail"
  mv "$slow"/*.edit "$copy/crates/$1/must-fail/"
fi
cd "$copy"
rt must-fail "$1"
