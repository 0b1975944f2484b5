#!/usr/bin/env bash
# Holds the reader of modules, what it reads by itself, the early errors and the constructs outside the profile to acorn. With
# MODULE_LINES the command that it names is run in place of the built program.
source "$(dirname "$0")/acorn.bash"
for name in modules modules_parts; do
  if [ -n "${MODULE_LINES:-}" ]; then
    node --no-deprecation --expose-internals "tests/engines/$name.js" || exit 1
  else
    hold_to_acorn "$name" module_lines || exit 1
  fi
done
