#!/usr/bin/env bash
# Times how fast a view is looked at: by the passes of a hub that ingests (cell), and by a lock round a view that is put
# anew (mutex), in 1 thread and in 4, alone and beside messages or puts. Prints looks a second of all threads together,
# best of five runs less the best of a run whose threads do nothing, and how many times faster the passes are.
#   bench/looks.sh [LOOKS [PUTS]]      the looks of each thread (2,000,000), and the messages or puts meanwhile (2,000)
# Needs nothing but bash and awk; BENCH_RATES names the program. Without that it is built where it is missing, which
# proves every crate below it.
set -euo pipefail
top=$(cd "$(dirname "$0")/.." && pwd)
. "$top/bench/fastest.sh"
looks=${1:-2000000}
puts=${2:-2000}
program_of bench_rates "${BENCH_RATES:-}" none 1 0 0

# One line: so many threads, and so many puts.
measure() {
  local threads=$1 put=$2 start cell mutex
  start=$(fastest "looks 0 accepted 0" none "$threads" "$looks" "$put")
  cell=$(fastest "looks $((threads * looks)) accepted $put" cell "$threads" "$looks" "$put")
  mutex=$(fastest "looks $((threads * looks)) accepted $put" mutex "$threads" "$looks" "$put")
  awk -v threads="$threads" -v put="$put" -v looks="$looks" -v start="$start" -v cell="$cell" -v mutex="$mutex" '
    function rate(took) { took -= start; return threads * looks * 1000000 / (took < 1 ? 1 : took) }
    BEGIN {
      printf "threads %d puts %d: cell %.0f looks a second, mutex %.0f, cell/mutex %.2f\n",
        threads, put, rate(cell), rate(mutex), rate(cell) / rate(mutex)
    }'
}

for threads in 1 4; do
  measure "$threads" 0
  measure "$threads" "$puts"
done
