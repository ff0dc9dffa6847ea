#!/usr/bin/env bash
# Times how fast a hub takes in small messages of one feed: by a hub that threads may share (ingest), and offered to a
# hub on one thread, which keeps them (offer). Prints messages a second of both, best of five runs less the best of a run
# that takes none in, and how many times faster the first is.
#   bench/intake.sh [MESSAGES]      how many messages (100,000)
# Needs nothing but bash and awk; BENCH_RATES names the program. Without that it is built where it is missing, which
# proves every crate below it.
set -euo pipefail
top=$(cd "$(dirname "$0")/.." && pwd)
. "$top/bench/fastest.sh"
messages=${1:-100000}
program_of bench_rates "${BENCH_RATES:-}" none 1 0 0

start=$(fastest "looks 0 accepted 0" none 1 0 "$messages")
ingest=$(fastest "looks 0 accepted $messages" cell 1 0 "$messages")
offer=$(fastest "looks 0 accepted $messages" offer 1 0 "$messages")
awk -v messages="$messages" -v start="$start" -v ingest="$ingest" -v offer="$offer" '
  function rate(took) { took -= start; return messages * 1000000 / (took < 1 ? 1 : took) }
  BEGIN {
    printf "messages %d: ingest %.0f a second, offer %.0f, ingest/offer %.2f\n",
      messages, rate(ingest), rate(offer), rate(ingest) / rate(offer)
  }'
