"""Costs of `hub check` by stop times and of `hub replay` by entities, for slopes.sh.

usage: slopes.py PROGRAM [STOP_TIMES ..]   the numbers of stop times, by default 100,000 to 4,000,000
"""
import math
import os
import re
import resource
import shutil
import subprocess
import sys
import tempfile

BENCH = os.path.dirname(os.path.abspath(__file__))
PROGRAM = sys.argv[1]
STOP_TIMES = [int(word) for word in sys.argv[2:]] or [100_000, 400_000, 1_000_000, 4_000_000]
ENTITIES = [20, 300, 3_000, 30_000]
# Counting makes a run some fifty times slower, so large inputs are only timed.
MOST_COUNTED = 400_000


def run(words, script=None):
    """CPU seconds and peak MiB of a run, in a process of its own so that the peak is this run's."""
    code = (
        "import resource, subprocess, sys\n"
        "given = open(sys.argv[1], 'rb') if sys.argv[1] else subprocess.DEVNULL\n"
        "subprocess.run(sys.argv[2:], stdin=given, stdout=subprocess.DEVNULL, stderr=subprocess.DEVNULL)\n"
        "used = resource.getrusage(resource.RUSAGE_CHILDREN)\n"
        "print(used.ru_utime + used.ru_stime, used.ru_maxrss / 1024)\n"
    )
    best = None
    for _ in range(3):
        said = subprocess.run([sys.executable, "-c", code, script or "", PROGRAM, *words], capture_output=True, check=True)
        seconds, peak = map(float, said.stdout.split())
        best = (seconds, peak) if best is None or seconds < best[0] else best
    return best


def instructions(words, script=None):
    """How many instructions a run takes, where valgrind can count them."""
    if not shutil.which("valgrind"):
        return None
    with open(script or os.devnull, "rb") as given:
        said = subprocess.run(
            ["valgrind", "--tool=callgrind", "--callgrind-out-file=/dev/null", PROGRAM, *words],
            stdin=given, stdout=subprocess.DEVNULL, stderr=subprocess.PIPE, check=False,
        )
    found = re.search(rb"Collected : (\d+)", said.stderr)
    return int(found.group(1)) if found else None


def slope(before, after):
    if not before or before[1] <= 0 or after[1] <= 0:
        return ""
    return f", slope {math.log(after[1] / before[1]) / math.log(after[0] / before[0]):.2f}"


def stop_times(work):
    last = None
    for count in STOP_TIMES:
        folder = os.path.join(work, f"city{count}")
        subprocess.run([sys.executable, os.path.join(BENCH, "make_timetable.py"), str(count // 20), folder], check=True)
        seconds, peak = run(["check", folder + ".toml"])
        line = f"{count:,} stop times: {seconds:.2f} s of CPU, {seconds / count * 1e9:.0f} ns each"
        line += f", peak {peak:.0f} MiB, {peak * 1048576 / count:.0f} bytes each" + slope(last, (count, seconds))
        if count <= MOST_COUNTED:
            counted = instructions(["check", folder + ".toml"])
            line += f", {counted / count:,.0f} instructions each" if counted else ""
        print(line, flush=True)
        last = (count, seconds)
        shutil.rmtree(folder)


def made(work, name, *words):
    path = os.path.join(work, name)
    with open(path, "wb") as out:
        subprocess.run([sys.executable, os.path.join(BENCH, "make_messages.py"), *words], stdout=out, check=True)
    return path


def without_end(script):
    with open(script, "rb") as given:
        text = given.read()
    return text[: text.rindex(b"E\n")]


def entities(work):
    costs = {"read": None, "written": None}
    for count in ENTITIES:
        plain = without_end(made(work, "full", "full", "1", str(count)))
        plain = plain.removesuffix(b"O plain\n")
        scripts = {}
        for name, text in (("taken", plain), ("written", plain + b"O plain\n" * 2)):
            scripts[name] = os.path.join(work, name)
            with open(scripts[name], "wb") as out:
                out.write(text + b"E\n")
        scripts["stale"] = made(work, "stale", "stale", "full", "1", str(count))
        scripts["passed"] = made(work, "passed", "passed", scripts["stale"])
        counted = {name: instructions(["replay"], path) for name, path in scripts.items()}
        if None in counted.values():
            print("entities: not counted, since there is no valgrind")
            return
        cost = {"read": counted["stale"] - counted["passed"], "written": (counted["written"] - counted["taken"]) // 2}
        for what, spent in cost.items():
            line = f"{count:,} entities {what}: {spent / count:,.0f} instructions each"
            print(line + slope(costs[what], (count, spent)), flush=True)
            costs[what] = (count, spent)


def main():
    with tempfile.TemporaryDirectory() as work:
        stop_times(work)
        entities(work)


main()
