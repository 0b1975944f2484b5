#!/usr/bin/env bash
# Links random graphs of modules with the program, by node's own linker, and by the rule of docs/PROFILE.md, and compares the three.
# Usage: graphs.sh [ES5C [COUNT]], where ES5C is a program in place of ours, by its whole path.
source "$(dirname "$0")/acorn.bash"
if ! command -v node >/dev/null 2>&1; then
  echo "graphs: skipped, no node"
  exit 0
fi
our_es5c "${1:-}"
node --experimental-vm-modules --no-warnings tests/engines/graphs.js "$es5c" 1 "${2:-2000}"
