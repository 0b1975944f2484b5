# Sourced by the checks that use acorn, the parser that node brings along, or the built program.
cd "$(dirname "${BASH_SOURCE[0]}")/../.." || exit 1

# skip_without_acorn NAME ends the check where node or its acorn is missing.
skip_without_acorn() {
  if ! node --expose-internals -e "require('internal/deps/acorn/acorn/dist/acorn')" 2>/dev/null; then
    echo "$1: skipped, no node with acorn"
    exit 0
  fi
}

# hold_to_acorn NAME PROGRAM runs tests/engines/NAME.js on the program of the crate, which is built where it isn't yet. The check is
# skipped where node or its acorn is missing.
hold_to_acorn() {
  local name=$1 program=$2
  skip_without_acorn "$name"
  if [ ! -x "crates/$program/out/$program" ]; then
    (cd "crates/$program" && rt run <stdin >/dev/null 2>&1) || exit 1
  fi
  node --no-deprecation --expose-internals "tests/engines/$name.js" "$PWD/crates/$program/out/$program"
}

# our_es5c [ES5C] sets es5c to the program that is named, or to ours, which is built first where it is missing or older than its sources.
our_es5c() {
  if [ -n "${1:-}" ]; then
    es5c=$1
  else
    # these words are no command
    ./es5c >/dev/null 2>&1
    es5c=$PWD/crates/es5c/out/es5c
  fi
  [ -x "$es5c" ] || exit 1
  # where Debian has the package source-map
  export NODE_PATH=/usr/share/nodejs:/usr/lib/nodejs
}
