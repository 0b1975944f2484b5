#!/usr/bin/env bash
# Holds our source maps to node's SourceMap, and to the Debian package node-source-map where it is there.
set -u
cd "$(dirname "$0")/../.." || exit 1
if ! command -v node >/dev/null; then
  echo "maps_compare: skipped, there is no node"
  exit 0
fi
# The first run builds the program.
program=crates/map_lines/out/map_lines
if [ ! -x "$program" ]; then
  (cd crates/map_lines && rt run <stdin >/dev/null) || exit 1
fi
NODE_PATH=/usr/share/nodejs:/usr/lib/nodejs node tests/engines/maps_compare.js "$PWD/$program"
