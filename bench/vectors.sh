#!/usr/bin/env bash
# Prints the processor seconds of three tests over 1,007,616 rows, row by row and by columns, each the mean of RUNS runs:
# bench/vectors.sh [RUNS]. It runs the proved program, and builds it where it isn't there yet.
set -euo pipefail
runs=${1:-10}
crate=$(cd "$(dirname "$0")/../crates/vector_bench" && pwd)
program=$crate/out/vector_bench
[ -x "$program" ] || (cd "$crate" && rt run -- sum columns >/dev/null)

# the mean of the processor seconds of a test, one way
TIMEFORMAT='%U %S'
mean() {
  { time for _ in $(seq "$runs"); do "$program" "$1" "$2" >/dev/null; done; } 2>&1 | awk -v n="$runs" '{ printf "%.3f", ($1 + $2) / n }'
}
for test in sum product case; do
  [ "$("$program" "$test" rows)" = "$("$program" "$test" columns)" ] || { echo "$test: the two ways keep different rows"; exit 1; }
  printf '%s: %s by rows, %s by columns\n' "$test" "$(mean "$test" rows)" "$(mean "$test" columns)"
done
