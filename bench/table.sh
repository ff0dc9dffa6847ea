#!/usr/bin/env bash
# What a message of 20 entities costs over a table of 2,000 ids and over one of 20,000: a replay of a whole data set and
# 2,000 such messages, less one of the data set alone. Of the 20 entities two are alerts. Prints both in time and, where
# valgrind is there, in instructions, and how they grow with the table.
# Needs python3 and the program, which ./hub builds where it is missing; or HUB, the path of another.
set -eu
. "$(dirname "$0")/begin.sh"

for ids in 2000 20000; do
  for messages in 0 200 2000; do
    python3 bench/make_messages.py over "$messages" 20 "$ids" > "$work/$messages-$ids"
  done
done
python3 - "$hub" "$work" <<'PY'
import re, shutil, subprocess, sys, time
program, work = sys.argv[1:]


def replay(name, before=()):
    with open(f"{work}/{name}", "rb") as given:
        return subprocess.run([*before, program, "replay"], stdin=given, stdout=subprocess.DEVNULL,
                              stderr=subprocess.PIPE, check=True)


def seconds(name):
    best = None
    for _ in range(5):
        began = time.monotonic()
        replay(name)
        took = time.monotonic() - began
        best = took if best is None else min(best, took)
    return best


def instructions(name):
    said = replay(name, ("valgrind", "--tool=callgrind", "--callgrind-out-file=/dev/null")).stderr
    return int(re.search(rb"Collected : (\d+)", said).group(1))


def measure(what, cost, messages):
    each = {ids: (cost(f"{messages}-{ids}") - cost(f"0-{ids}")) / messages for ids in (2000, 20000)}
    told = ", ".join(f"{what(one)} over {ids:,} ids" for ids, one in each.items())
    print(f"a message of 20 entities: {told}; growth {each[20000] / each[2000]:.2f}", flush=True)


measure(lambda one: f"{one * 1e6:.0f} microseconds", seconds, 2000)
if shutil.which("valgrind"):
    measure(lambda one: f"{one:,.0f} instructions", instructions, 200)
PY
