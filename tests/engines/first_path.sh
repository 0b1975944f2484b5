#!/usr/bin/env bash
# Builds each module of first/, runs the script in each engine that is there, and compares the events with the expected
# ones. node runs the module itself too, so that the expected events are those of an engine for ES2015. Usage: first_path.sh [ES5C], where ES5C is a
# program in place of ours, by its whole path.
set -u
here=$(cd "$(dirname "$0")" && pwd)
root=$(cd "$here/../.." && pwd)
es5c=${1:-$root/es5c}
work=$(mktemp -d) || exit 1
trap 'rm -rf "$work"' EXIT
passed=0
failed=0

compare() { # NAME EXPECTED GOT
  if cmp -s "$2" "$3"; then
    passed=$((passed + 1))
  else
    failed=$((failed + 1))
    echo "engines: $1 differs" >&2
    diff "$2" "$3" >&2
  fi
}

# A script for an engine whose one way to write a line is `print`. mujs loads a script by its path, duktape by its text.
plain_script() { # ENGINE SCRIPT ANSWERS
  local run
  if [ "$1" = mujs ]; then
    run="load(\"$2\")"
  else
    run="(0, eval)($(node -e 'process.stdout.write(JSON.stringify(require("fs").readFileSync(process.argv[1], "utf8")))' "$2"))"
  fi
  echo 'var say = print;'
  cat "$here/first_hosts.js"
  echo "var answers = $(cat "$3" 2>/dev/null || echo '{}');"
  echo 'var made = makeHosts(say, answers, ["print", "read", "count"]), name, threw = false;'
  echo 'for (name in made.hosts) this[name] = made.hosts[name];'
  echo "try { $run; }"
  echo 'catch (error) { threw = true; say("threw " + made.show(error)); }'
  echo 'if (!threw) say("ended");'
}

if ! command -v node >/dev/null 2>&1; then
  echo "engines: node is missing, so nothing is run"
  exit 0
fi
for module in "$here"/first/*.js; do
  name=$(basename "$module" .js)
  expected="$here/first/$name.expected"
  answers="$here/first/$name.answers"
  cp "$module" "$work/$name.js"
  if ! (cd "$work" && "$es5c" build "$name.js" >"$name.script"); then
    failed=$((failed + 1))
    echo "engines: $name isn't built" >&2
    continue
  fi
  node --no-warnings --experimental-vm-modules "$here/first_node.js" module "$module" "$answers" >"$work/got"
  compare "$name as a module in node" "$expected" "$work/got"
  node --no-warnings "$here/first_node.js" script "$work/$name.script" "$answers" >"$work/got"
  compare "$name in node" "$expected" "$work/got"
  for engine in mujs duk; do
    command -v "$engine" >/dev/null 2>&1 || continue
    plain_script "$engine" "$work/$name.script" "$answers" >"$work/plain.js"
    "$engine" "$work/plain.js" >"$work/got" 2>&1
    compare "$name in $engine" "$expected" "$work/got"
  done
done
echo "engines: $passed passed, $failed failed"
[ "$failed" -eq 0 ]
