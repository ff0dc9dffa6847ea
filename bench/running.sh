#!/usr/bin/env bash
# Measures a running hub: how many messages a second it takes (ingest), how long a whole data set takes it on all
# processors and by one thread (whole), how fast it answers, next to nginx (load), and
# over a large city next to a small one (cities), its memory over an hour's worth of messages (memory), what clients
# that never read cost it (unread), and what it takes by size (sizes). The words say which, all where there are none.
#   bench/running.sh [ingest] [whole] [load] [cities] [memory] [unread] [sizes]
# load and cities need wrk, load nginx; ingest needs wrk, and counts instructions where valgrind is there.
# Needs python3 and the program, which ./hub builds where it is missing; or HUB, the path of another.
set -eu
. "$(dirname "$0")/begin.sh"
[ $# -gt 0 ] || set -- ingest whole load cities memory unread sizes
for what; do
  case $what in
    ingest | whole | load | cities | memory | unread | sizes) python3 "bench/$what.py" "$hub" ;;
    *) echo "running.sh: ingest, whole, load, cities, memory, unread or sizes" >&2; exit 2 ;;
  esac
done
