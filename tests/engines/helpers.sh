#!/usr/bin/env bash
# Holds the helpers of scripts to what they stand for, in node and in small engines where these are there; and reads their text as a script.
source "$(dirname "$0")/acorn.bash"
skip_without_acorn helpers
engines=
if command -v duk >/dev/null; then engines="$engines duktape"; fi
if command -v mujs >/dev/null; then engines="$engines mujs"; fi
# shellcheck disable=SC2086
node --no-deprecation --expose-internals tests/engines/helpers.js $engines || exit 1
if [ ! -x crates/script_lines/out/script_lines ]; then
  (cd crates/script_lines && rt run <stdin >/dev/null 2>&1) || exit 1
fi
text=$(mktemp)
trap 'rm -f "$text"' EXIT
node -e 'process.stdout.write(require("fs").readFileSync("crates/helpers/src/text.rt", "utf8").match(/ = b"([^"\\]*)";/)[1])' >"$text"
answer=$({ wc -c <"$text"; cat "$text"; } | crates/script_lines/out/script_lines | head -n 1)
case "$answer" in
  script\ *) echo "helpers: the text is a script" ;;
  *) echo "helpers: the text is no script: $answer"; exit 1 ;;
esac
