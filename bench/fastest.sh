# shellcheck shell=bash
# For the scripts beside it: sets `program` to a program of this repository, and times it.

# The program of that crate, or the one that is named. Without a name it is built where it is missing, which proves every
# crate below it; the words behind are those of the first run.
#   program_of CRATE NAMED WORDS..
program_of() {
  local crate=$1 named=$2
  shift 2
  program=${named:-$top/crates/$crate/out/$crate}
  if [ ! -x "$program" ]; then
    echo "${0##*/}: builds $crate" >&2
    (cd "$top/crates/$crate" && rt run -- "$@" > /dev/null)
  fi
}

# Microseconds of the fastest of five runs of the program with these words, each of which must print that line.
#   fastest LINE WORDS..
fastest() {
  local wanted=$1 least="" began took line
  shift
  for _ in 1 2 3 4 5; do
    began=${EPOCHREALTIME/[.,]/}
    line=$("$program" "$@")
    took=$((${EPOCHREALTIME/[.,]/} - began))
    if [ "$line" != "$wanted" ]; then
      echo "${0##*/}: ${program##*/} $* printed '$line', and not '$wanted'" >&2
      exit 1
    fi
    if [ -z "$least" ] || [ "$took" -lt "$least" ]; then least=$took; fi
  done
  echo "$least"
}
