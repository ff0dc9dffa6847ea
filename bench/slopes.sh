#!/usr/bin/env bash
# Prints what a stop time, an entity read and an entity written cost as inputs grow, with the slope from each size to
# the next (1 is linear). Instructions are counted where valgrind is there.
#   bench/slopes.sh [STOP_TIMES ..]
# Needs python3 and the program, which ./hub builds where it is missing; or HUB, the path of another.
set -eu
. "$(dirname "$0")/begin.sh"
python3 bench/slopes.py "$hub" "$@"
