#!/usr/bin/env bash
# Compares the files of the sample graph with those that JavaScript makes of the same table.
set -u
cd "$(dirname "$0")/../.." || exit 1
if ! command -v node >/dev/null; then
  echo "sample: skipped, there is no node"
  exit 0
fi
# The first run builds the program.
program=crates/sample_lines/out/sample_lines
if [ ! -x "$program" ]; then
  (cd crates/sample_lines && rt run <stdin >/dev/null) || exit 1
fi
node tests/engines/sample.js "$PWD/$program"
