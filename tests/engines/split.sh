#!/usr/bin/env bash
# Splits the graphs of programs/ that have several modules into a script for each, runs these in their order in each engine that is there, and compares
# their events, and the events' places by the scripts' own maps, with those of the modules. Usage: split.sh [ES5C [NAME ..]], where ES5C is a program
# in place of ours, by its whole path.
source "$(dirname "$0")/acorn.bash"
skip_without_acorn split
our_es5c "${1:-}"
node --no-warnings --expose-internals --experimental-vm-modules tests/engines/programs.js "$es5c" split "${@:2}"
