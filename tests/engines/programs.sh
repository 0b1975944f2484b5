#!/usr/bin/env bash
# Builds the programs of programs/ and random ones, runs the scripts in each engine that is there, and compares their events, and the events'
# places by the map, with those of the modules. Usage: programs.sh [ES5C [COUNT]], where ES5C is a program in place of ours, by its whole path, and COUNT
# the number of random programs. WORKERS is how many of them are played at once, as many as there are processors otherwise.
source "$(dirname "$0")/acorn.bash"
skip_without_acorn programs
our_es5c "${1:-}"
count=${2:-2000}
workers=${WORKERS:-$(nproc)}
run() {
  node --no-warnings --expose-internals --experimental-vm-modules tests/engines/programs.js "$es5c" "$@"
}
status=0
run folders || status=1
pids=()
for ((worker = 0; worker < workers; worker++)); do
  first=$((1 + count * worker / workers))
  next=$((1 + count * (worker + 1) / workers))
  run random "$first" $((next - first)) &
  pids+=("$!")
done
for pid in "${pids[@]}"; do wait "$pid" || status=1; done
exit $status
