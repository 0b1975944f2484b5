#!/usr/bin/env bash
# Holds the texts of modules of which the answer is known to acorn.
source "$(dirname "$0")/acorn.bash"
skip_without_acorn modules_known
node --no-deprecation --expose-internals tests/engines/modules_known.js
