"""What boards cost over large timetables and many updates, and messages over feeds of many, for boards.sh.

usage: boards.py PROGRAM [BEFORE]   BEFORE is another program, of which the same is printed next to it

All are slopes: what one board or one message more costs in a replay, in instructions.
"""
import os
import re
import subprocess
import sys
import tempfile
from pathlib import Path

BENCH = Path(__file__).resolve().parent
sys.path.append(str(BENCH.parent / "samples/serve"))
from wire import number, run

PROGRAMS = sys.argv[1:]
# 00:00 of 30 March 2025 in CET, on which all trips of make_timetable.py run, and 07:00.
MIDNIGHT = 1743289200
MORNING = MIDNIGHT + 7 * 3600
TRIPS, PLACES = 20_000, 20


def timetable(work, days, trips=TRIPS):
    """The configuration of so many trips in a window of so many days from 28 March on, with one feed."""
    folder = f"{work}/city{trips}-{days}"
    subprocess.run([sys.executable, BENCH / "make_timetable.py", str(trips), folder, str(PLACES)], check=True)
    conf = Path(f"{folder}.toml")
    text = conf.read_text().replace('first = "20250329"', 'first = "20250328"')
    conf.write_text(re.sub(r"days = .*", f"days = {days}", text) + '[[feed]]\nname = "a"\nschedule = "city"\nkind = "none"\n')
    return str(conf)


def update(trip, delay, stamp):
    """An update of a trip on 30 March, with a delay at its first place, which its 20 places take over."""
    about = run(1, run(1, b"T%d" % trip) + run(3, b"20250330"))
    stops = run(2, number(1, 1) + run(3, number(1, delay)))
    return run(2, run(1, b"e%d" % trip) + run(3, about + stops + number(4, stamp)))


def message(stamp, incrementality, trips, later=0):
    """A message of updates of trips, each with the delay of its trip and so many seconds more, modulo ten minutes."""
    header = run(1, run(1, b"2.0") + number(2, incrementality) + number(3, stamp))
    body = header + b"".join(update(trip, (trip * 37 + later) % 600, stamp) for trip in trips)
    return b"M a %d\n%s\n" % (len(body), body)


def whole(updates, trips=TRIPS):
    """A whole data set of so many updates, of trips that leave around the clock."""
    return message(MIDNIGHT, 0, [k * trips // updates for k in range(updates)])


def boards(count):
    return b"".join(b"B city S%d %d 86400 50 text\n" % (k % 100, MORNING) for k in range(count))


def changes(count, updates, more=0):
    """Messages of 20 updates, spread over those of the data set. Delays are so many seconds more from message to message;
    where they are none more, each says again what was said."""
    step = TRIPS // updates
    return b"".join(
        message(MIDNIGHT + 1 + m, 1, [(m * 7919 + k * updates // 20) % updates * step for k in range(20)], (m + 1) * more)
        for m in range(count))


def cost(program, conf, work, script):
    path = f"{work}/script"
    Path(path).write_bytes(script + b"E\n")
    with open(path, "rb") as given:
        said = subprocess.run(
            ["valgrind", "--tool=callgrind", "--callgrind-out-file=/dev/null", program, "replay", conf],
            stdin=given, stdout=subprocess.DEVNULL, stderr=subprocess.PIPE, check=True)
    return int(re.search(rb"Collected : (\d+)", said.stderr)[1])


def peak(program, conf, work, script):
    path, told = f"{work}/script", f"{work}/peak"
    Path(path).write_bytes(script + b"E\n")
    with open(path, "rb") as given:
        subprocess.run(["/usr/bin/time", "-f", "%M", "-o", told, program, "replay", conf],
                       stdin=given, stdout=subprocess.DEVNULL, check=True)
    return int(Path(told).read_text()) / 1024


def told(what, values, form="{:,.0f}"):
    print(f"{what}: {', before '.join(form.format(value) for value in values)}", flush=True)


def main():
    with tempfile.TemporaryDirectory() as work:
        week, year = timetable(work, 7), timetable(work, 400)
        for conf, days in ((week, 7), (year, 400)):
            few, many = whole(2000) + boards(10), whole(2000) + boards(60)
            told(f"instructions of a board of 50 rows out of 20,000 trips and 2,000 updates, {days} days",
                 [(cost(program, conf, work, many) - cost(program, conf, work, few)) / 50 for program in PROGRAMS])
        for what, more in (("that say again what was said", 0), ("whose delays change", 61)):
            for updates in (2000, 20000):
                few, many = (whole(updates) + changes(count, updates, more) for count in (10, 60))
                told(f"instructions of a message of 20 updates {what}, into a feed of {updates:,}",
                     [(cost(program, week, work, many) - cost(program, week, work, few)) / 50 for program in PROGRAMS])
        stale = message(253402300799, 1, [])
        for what, script in (("read and taken in", whole(3000)), ("read alone", stale + whole(3000))):
            told(f"instructions of a whole data set of 3,000 updates of 20 places, {what}",
                 [cost(program, week, work, script) - cost(program, week, work, b"") for program in PROGRAMS])
        # Of a timetable of no more trips than that, so that loading it isn't what takes most.
        small = timetable(work, 7, 3000)
        told("MiB of a feed of 3,000 updates of 20 places",
             [peak(program, small, work, whole(3000, 3000)) - peak(program, small, work, b"") for program in PROGRAMS], "{:.1f}")


main()
