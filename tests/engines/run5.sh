#!/usr/bin/env bash
# Plays scripts with `run5`: those of the rows of programs, and small ones. Usage: run5.sh [ES5C], where ES5C is a program in place of ours, by its whole path.
source "$(dirname "$0")/acorn.bash"
skip_without_acorn run5
our_es5c "${1:-}"
node --no-warnings tests/engines/run5.js "$es5c"
