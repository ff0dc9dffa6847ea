#!/usr/bin/env bash
# Times the combined feed of 3,000 entities: a replay that takes one whole data set and writes the feed 200 times, less one
# that writes it never. Prints microseconds a feed and its MB a second, of a timetable without prefix and of one with,
# next to a copy of the same bytes within memory; and instructions an entity where valgrind is there to count them.
#   bench/combined.sh [ENTITIES]
# Needs python3 and the program, which ./hub builds where it is missing; or HUB, the path of another.
set -eu
. "$(dirname "$0")/begin.sh"
python3 bench/make_messages.py full 1 "${1:-3000}" > "$work/plain"
python3 - "$hub" "$work" "${1:-3000}" <<'PY'
import re, shutil, subprocess, sys, time
program, work, entities = sys.argv[1], sys.argv[2], int(sys.argv[3])
TIMES = 200

with open(f"{work}/plain", "rb") as given:
    taken = given.read().removesuffix(b"E\n")
message = taken.removeprefix(b"F a\n")


def configured(prefix):
    """The configuration of the sample's city under that prefix, with the one feed."""
    with open("samples/city.toml") as given:
        schedule = given.read().split("[[feed]]")[0]
    path = f"{work}/prefixed.toml"
    with open(path, "w") as out:
        out.write(schedule.rstrip() + f'\nprefix = "{prefix}"\n\n[[feed]]\nname = "a"\nschedule = "city"\n')
    return path


def replay(words, script, out, counted=False):
    """Seconds of a replay, or its instructions."""
    with open(f"{work}/script", "wb") as file:
        file.write(script + b"E\n")
    count = ["valgrind", "--tool=callgrind", "--callgrind-out-file=/dev/null"] if counted else []
    with open(f"{work}/script", "rb") as given, open(out, "wb") as kept:
        began = time.monotonic()
        done = subprocess.run(count + [program, "replay", *words], stdin=given, stdout=kept, stderr=subprocess.PIPE)
        took = time.monotonic() - began
    if done.returncode != 0:
        sys.exit(f"combined.sh: status {done.returncode}")
    return int(re.search(rb"Collected : (\d+)", done.stderr).group(1)) if counted else took


def fastest(words, script, out):
    return min(replay(words, script, out) for _ in range(5))


def copied(data):
    """Seconds of one copy of the bytes within memory."""
    best = None
    for _ in range(5):
        began = time.monotonic()
        for _ in range(TIMES):
            bytearray(data)
        took = (time.monotonic() - began) / TIMES
        best = took if best is None else min(best, took)
    return best


def measure(what, words, taken, record):
    replay(words, taken + record, f"{work}/once")
    with open(f"{work}/once", "rb") as given:
        feed = given.read()
    without = fastest(words, taken, "/dev/null")
    took = (fastest(words, taken + record * TIMES, "/dev/null") - without) / TIMES
    copy = copied(feed)
    line = f"{what}: {len(feed):,} bytes in {took * 1e6:.0f} microseconds, {len(feed) / took / 1e6:.0f} MB a second; "
    line += f"a copy of them takes {copy * 1e6:.0f}, {took / copy:.0f} times less"
    if shutil.which("valgrind"):
        ten = replay(words, taken + record * 10, "/dev/null", True) - replay(words, taken, "/dev/null", True)
        line += f"; {ten / 10 / entities:,.0f} instructions an entity"
    print(line, flush=True)


measure("without prefix", [], taken, b"O plain\n")
measure("with a prefix", [configured("x-")], message, b"O city\n")
PY
