#!/usr/bin/env bash
# Plays modules with `run` and `sample`: the rows of programs, both sides of each exit, the folders of programs, refusals, hosts and streams that fail, and
# runs that are stopped. Usage: run.sh [ES5C], where ES5C is a program in place of ours, by its whole path.
source "$(dirname "$0")/acorn.bash"
skip_without_acorn run
our_es5c "${1:-}"
node --no-warnings tests/engines/run.js "$es5c"
