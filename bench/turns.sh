#!/usr/bin/env bash
# Prints how many turns a second one cell gives 1, 2, 4 and 8 workers that do nothing else, with the processor time and the
# peak memory of each run: bench/turns.sh [TURNS]. On fewer processors: taskset -c 0,1 bench/turns.sh
# It runs the proved program, and builds it where it isn't there yet.
set -euo pipefail
turns=${1:-1000000}
crate=$(cd "$(dirname "$0")/../crates/turn_bench" && pwd)
program=$crate/out/turn_bench
[ -x "$program" ] || (cd "$crate" && rt run -- 1 1 >/dev/null)

echo "$turns turns on $(nproc) processors"
for workers in 1 2 4 8; do
  measured=$(mktemp)
  before=$(date +%s%N)
  taken=$(/usr/bin/time -o "$measured" -f '%U %S %M' "$program" "$workers" "$turns")
  after=$(date +%s%N)
  [ "$taken" = "$turns" ] || { echo "$workers workers took $taken turns"; exit 1; }
  read -r user system memory <"$measured"
  rm -f "$measured"
  awk -v w="$workers" -v n="$turns" -v ns=$((after - before)) -v u="$user" -v s="$system" -v m="$memory" \
    'BEGIN { printf "%d workers: %d turns a second (%.3f s, processor %.2f s, peak %d KB)\n", w, n / (ns / 1e9), ns / 1e9, u + s, m }'
done
