#!/usr/bin/env bash
# Holds the scopes of modules to an analysis over acorn's trees. With SCOPE_LINES the command that it names is run in place of the
# built program.
source "$(dirname "$0")/acorn.bash"
if [ -n "${SCOPE_LINES:-}" ]; then
  node --no-deprecation --expose-internals tests/engines/scopes.js || exit 1
else
  hold_to_acorn scopes scope_lines || exit 1
fi
