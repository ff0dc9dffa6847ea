"""Costs of `hub gen` by the sizes of its sample, for gen.sh.

usage: gen.py PROGRAM [TRIPS:MESSAGES ..]   the sizes, by default 1000:1000 5000:1000 20000:200 20000:2000
"""
import math
import os
import re
import shutil
import subprocess
import sys
import tempfile

PROGRAM = sys.argv[1]
SEED = "7"
SIZES = [tuple(map(int, word.split(":"))) for word in sys.argv[2:]] or [
    (1000, 1000), (5000, 1000), (20000, 200), (20000, 2000)]
OFFER = "hub_state::replay::ReplayHub::offer"
ROWS = "board_core::board::rows"


def run(trips, messages):
    """The line, CPU seconds and peak MiB of a run, in a process of its own so that the peak is this run's."""
    code = (
        "import resource, subprocess, sys\n"
        "said = subprocess.run(sys.argv[1:], stdin=subprocess.DEVNULL, capture_output=True, check=True)\n"
        "used = resource.getrusage(resource.RUSAGE_CHILDREN)\n"
        "print(used.ru_utime + used.ru_stime, used.ru_maxrss / 1024, said.stdout.decode(), end='')\n"
    )
    words = [sys.executable, "-c", code, PROGRAM, "gen", SEED, str(trips), str(messages)]
    said = [subprocess.run(words, capture_output=True, text=True, check=True).stdout.split(" ", 2) for _ in range(2)]
    if said[0][2] != said[1][2]:
        sys.exit(f"gen.py: two lines of one sample: {said[0][2]!r} and {said[1][2]!r}")
    best = min(said, key=lambda words: float(words[0]))
    return best[2].strip(), float(best[0]), float(best[1])


def counted(trips, messages):
    """The instructions of a run, and how many of them offering the messages and asking for the boards take."""
    with tempfile.TemporaryDirectory() as work:
        calls = os.path.join(work, "calls")
        subprocess.run(
            ["valgrind", "--tool=callgrind", f"--callgrind-out-file={calls}",
             PROGRAM, "gen", SEED, str(trips), str(messages)],
            stdin=subprocess.DEVNULL, capture_output=True, check=True,
        )
        said = subprocess.run(
            ["callgrind_annotate", "--inclusive=yes", "--threshold=100", calls],
            capture_output=True, text=True, check=True,
        ).stdout

    def cost(name):
        found = re.search(rf"^ *([\d,]+) .*{re.escape(name)}\b", said, re.M)
        return int(found.group(1).replace(",", "")) if found else 0

    return cost("PROGRAM TOTALS"), cost(OFFER), cost(ROWS)


def parts(trips, messages):
    """What each part of a run takes, in instructions. A run of one message shows what the timetable takes."""
    whole, offering, boards = counted(trips, messages)
    alone, offering_one, boards_one = counted(trips, 1)
    timetable = alone - offering_one - boards_one
    return {
        "making and loading the timetable": (timetable, "a stop time", 20 * trips),
        "making the messages": (whole - timetable - offering - boards, "a message", messages),
        "offering them": (offering, "a message", messages),
        "boards": (boards, "a board", 10),
    }


def main():
    points = {}
    for trips, messages in SIZES:
        line, seconds, peak = run(trips, messages)
        print(line)
        print(f"  {seconds:.2f} s of CPU, {peak:.0f} MiB")
        if not shutil.which("valgrind"):
            continue
        for name, (cost, of, count) in parts(trips, messages).items():
            print(f"  {name}: {cost / 1e6:,.0f} million instructions, {cost / count:,.0f} {of}")
            if name != "boards":
                points.setdefault(name, {})[count] = cost
    for name, costs in points.items():
        sizes = sorted(costs)
        for before, after in zip(sizes, sizes[1:]):
            if costs[before] > 0 and costs[after] > 0:
                slope = math.log(costs[after] / costs[before]) / math.log(after / before)
                print(f"{name}, {before:,} to {after:,}: slope {slope:.2f}")


main()
