#!/usr/bin/env bash
# What a board costs over 20,000 trips and 2,000 updates, in a window of 7 and of 400 days; a message of 20 updates, which
# say again what was said, or whose delays change, into feeds of 2,000 and of 20,000; and a whole data set of 3,000
# updates, next to reading it, with the memory that it takes.
# Prints instructions, and MiB.
#   bench/boards.sh [BEFORE]      BEFORE is the path of another program, of which the same is printed next to it
# Needs python3, valgrind, GNU time and the program, which ./hub builds where it is missing; or HUB, the path of another.
set -eu
# shellcheck disable=SC1091
. "$(dirname "$0")/begin.sh"
python3 bench/boards.py "$hub" "$@"
