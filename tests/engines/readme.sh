#!/usr/bin/env bash
# Plays the examples of README.md in each engine that is there. Usage: readme.sh [ES5C], where ES5C is a program in place of ours, by its whole path.
source "$(dirname "$0")/acorn.bash"
if ! command -v node >/dev/null; then
  echo "readme: skipped, no node"
  exit 0
fi
our_es5c "${1:-}"
node tests/engines/readme.js "$es5c"
