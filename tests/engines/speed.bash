#!/usr/bin/env bash
# Measures what `build` takes beside Babel and TypeScript where Debian's packages node-babel7 and node-typescript are there: the sample graph of 100, 300
# and 1,000 modules, and one module of 1, 2 and 4 MiB of real code. Usage: speed.bash [ES5C [WORD ..]], where ES5C is a program in place of ours, by its
# whole path, and the words pick what is measured: es5c, babel, typescript, sample, code. Its name keeps it out of the gate.
#
# A row has the seconds that passed, those of the processor, and the peak of memory in MB, the program's own start included.
source "$(dirname "$0")/acorn.bash"
our_es5c "${1:-}"
shift
work=$(mktemp -d) || exit 1
trap 'rm -rf "$work"' EXIT

picked() { # WORD, and the words that are asked for
  local word=$1
  shift
  case " ${*:-es5c babel typescript sample code} " in *" $word "*) return 0 ;; *) return 1 ;; esac
}

measure() { # NAME FOLDER COMMAND ..
  local name=$1 folder=$2
  shift 2
  if (cd "$folder" && exec /usr/bin/time -f '%e %U %S %M' -o "$work/time" "$@" >"$work/out" 2>"$work/err"); then
    awk -v name="$name" -v bytes="$(stat -c %s "$work/out")" '{ printf "%-24s %8.2f s  %8.2f s of processor  %6.0f MB  %9d bytes\n", name, $1, $2 + $3, $4 / 1024, bytes }' "$work/time"
  else
    echo "$name: failed: $(head -n 1 "$work/err" | cut -c 1-200)"
  fi
}

all() { # NAME FOLDER
  picked es5c "${words[@]}" && measure "$1 es5c" "$2" "$es5c" build main.js
  for compiler in babel typescript; do
    picked "$compiler" "${words[@]}" && measure "$1 $compiler" "$2" node "$PWD/tests/engines/speed_compile.js" "$compiler" .
  done
}

words=("$@")
if [ ${#words[@]} -eq 0 ]; then words=(es5c babel typescript sample code); fi
nothing=$work/nothing
mkdir "$nothing"
: >"$nothing/main.js"
all nothing "$nothing"
if picked sample "${words[@]}"; then
  for count in 100 300 1000; do
    node tests/engines/speed_modules.js sample "$count" "$work/$count" && all "$count modules" "$work/$count"
  done
fi
if picked code "${words[@]}"; then
  for size in 1 2 4; do
    node tests/engines/speed_modules.js code "$((size * 1048576))" "$work/code$size" && all "$size MiB" "$work/code$size"
  done
fi
exit 0
