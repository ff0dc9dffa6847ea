#!/usr/bin/env bash
# What it costs a running hub to say what changed in a combined feed since an earlier answer: 20 entities of 3,000 and of
# 30,000, next to the whole feed. Prints instructions of a request, bytes of its answer, and how they compare.
# Needs python3, valgrind and the program, which ./hub builds where it is missing; or HUB, the path of another.
set -eu
# shellcheck disable=SC1091
. "$(dirname "$0")/begin.sh"
python3 bench/since.py "$hub"
