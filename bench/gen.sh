#!/usr/bin/env bash
# Prints what `hub gen` takes on samples of several sizes: CPU seconds, peak memory and, where valgrind is there,
# instructions, with what of these making and loading the timetable, offering the messages and asking for the boards
# take, and the slopes of a stop time and of a message (1 is linear). Each sample is run twice, and must print one line.
#   bench/gen.sh [TRIPS:MESSAGES ..]
# Needs python3 and the program, which ./hub builds where it is missing; or HUB, the path of another.
set -eu
. "$(dirname "$0")/begin.sh"
python3 bench/gen.py "$hub" "$@"
