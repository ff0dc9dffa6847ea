#!/usr/bin/env bash
# What the index of departures by their stops costs: making it of 1,000,000 stop times, next to loading these, and handing
# out a departure, in a window of 7 and of 400 days. Prints instructions, and the memory of both.
# Needs python3, valgrind and GNU time; the program, which ./hub builds where it is missing (HUB names another), and
# bench_rates, which is built where it is missing (BENCH_RATES names another).
set -euo pipefail
# shellcheck disable=SC1091
. "$(dirname "$0")/begin.sh"
. "$top/bench/fastest.sh"
program_of bench_rates "${BENCH_RATES:-}" none 1 0 0

# Instructions of a command.
#   instructions WORDS..
instructions() {
  valgrind --tool=callgrind --callgrind-out-file=/dev/null "$@" 2>&1 > /dev/null | sed -n 's/.*Collected : //p'
}

# The most memory of a command, in KiB.
#   memory WORDS..
memory() {
  /usr/bin/time -f %M -o "$work/peak" "$@" > /dev/null
  cat "$work/peak"
}

python3 bench/make_timetable.py 50000 "$work/large"
loaded=$(instructions "$program" departures "$work/large.toml" 0 0 0)
checked=$(instructions "$hub" check "$work/large.toml")
with=$(memory "$program" departures "$work/large.toml" 0 0 0)
without=$(memory "$hub" check "$work/large.toml")
awk -v loaded="$loaded" -v checked="$checked" -v with="$with" -v without="$without" 'BEGIN {
  printf "the index of 1,000,000 stop times: %d million instructions, %.2f of loading them; at most %d MiB, %d without it\n",
    (loaded - checked) / 1e6, (loaded - checked) / checked, with / 1024, without / 1024
}'

# What a departure costs in a window of so many days: the slope of going over those of an hour at all stops more often.
#   each DAYS
each() {
  local days=$1 few many line
  python3 bench/make_timetable.py 2000 "$work/days$days"
  sed -i "s/^days = .*/days = $days/" "$work/days$days.toml"
  line=$("$program" departures "$work/days$days.toml" 1743314400 3600 1)
  few=$(instructions "$program" departures "$work/days$days.toml" 1743314400 3600 10)
  many=$(instructions "$program" departures "$work/days$days.toml" 1743314400 3600 110)
  awk -v days="$days" -v few="$few" -v many="$many" -v line="$line" 'BEGIN {
    split(line, words, " ")
    printf "a departure handed out, window of %d days: %d instructions (%d in an hour)\n", days, (many - few) / 100 / words[2], words[2]
  }'
}

each 7
each 400
