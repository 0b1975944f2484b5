#!/usr/bin/env bash
# Plays rows of programs, written by hand, with `build`, `split` and `map`, and the scripts in each engine that is there. Usage: rows.sh [ES5C], where ES5C is a
# program in place of ours, by its whole path.
source "$(dirname "$0")/acorn.bash"
skip_without_acorn rows
our_es5c "${1:-}"
node --no-warnings --expose-internals tests/engines/rows.js "$es5c"
