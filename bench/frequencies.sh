#!/usr/bin/env bash
# What `hub check` costs where frequencies.txt gives the trips, next to the same trips spelled out: instructions a place,
# and the most memory. TRIPS trips of 20 places, 100,000 where it is left out.
#   bench/frequencies.sh [TRIPS]
# Needs python3, valgrind and GNU time; the program, which ./hub builds where it is missing, or HUB, the path of another.
set -euo pipefail
# shellcheck disable=SC1091
. "$(dirname "$0")/begin.sh"
trips=${1:-100000}

# Instructions of a check.
#   instructions CONFIG
instructions() {
  valgrind --tool=callgrind --callgrind-out-file=/dev/null "$hub" check "$1" 2>&1 > /dev/null | sed -n 's/.*Collected : //p'
}

# The most memory of a check, in KiB.
#   memory CONFIG
memory() {
  /usr/bin/time -f %M -o "$work/peak" "$hub" check "$1" > /dev/null
  cat "$work/peak"
}

python3 bench/make_timetable.py "$trips" "$work/spelled"
python3 bench/make_timetable.py --frequencies "$trips" "$work/derived"
patterns=$(($(wc -l < "$work/derived/trips.txt") - 1))
awk -v trips="$trips" -v patterns="$patterns" \
  -v derived="$(instructions "$work/derived.toml")" -v spelled="$(instructions "$work/spelled.toml")" \
  -v with="$(memory "$work/derived.toml")" -v without="$(memory "$work/spelled.toml")" 'BEGIN {
  printf "%d trips of 20 places, of %d patterns: %d instructions a place, %.2f of the %d where they are spelled out; ",
    trips, patterns, derived / trips / 20, derived / spelled, spelled / trips / 20
  printf "at most %d MiB, and %d\n", with / 1024, without / 1024
}'
