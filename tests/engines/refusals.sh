#!/usr/bin/env bash
# Holds what `es5c build` refuses, its line, status and place, to the tables of docs/PROFILE.md. Usage: refusals.sh [ES5C], where ES5C is a program in
# place of ours, by its whole path.
source "$(dirname "$0")/acorn.bash"
if ! command -v node >/dev/null 2>&1; then
  echo "refusals: skipped, no node"
  exit 0
fi
our_es5c "${1:-}"
node tests/engines/refusals.js "$es5c"
