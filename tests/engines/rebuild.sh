#!/usr/bin/env bash
# Builds graphs again after the edits of a list, and holds the lines between the scripts, the scripts' events and the refusals of lists to what is worked
# out by hand. Usage: rebuild.sh [ES5C], where ES5C is a program in place of ours, by its whole path.
source "$(dirname "$0")/acorn.bash"
skip_without_acorn rebuild
our_es5c "${1:-}"
node --no-warnings --expose-internals tests/engines/rebuild.js "$es5c"
