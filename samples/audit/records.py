"""The records of a feed's messages: how record.py writes them and audit.py finds them.

A feed has a file a day, FEED.20261130, to which is added alone. A message is a line

    message RUN PLACE TIME LENGTH

then its bytes, and LF. RUN is the time at which the hub connected: a hub counts its messages anew with each start, and so
does PLACE, from 1; a place 0 without bytes says that it connected. TIME is when the message came. Both are seconds since
1970, with six digits after the point, and a day is one of UTC.
"""
import threading
import time
from collections import namedtuple
from pathlib import Path

Arrival = namedtuple("Arrival", "time feed place payload")


def day_of(moment):
    return time.strftime("%Y%m%d", time.gmtime(moment))


class Recorder:
    """Adds the messages of a feed to its file of the day. Each is with the system before `add` returns."""

    def __init__(self, folder, feed):
        self.folder, self.feed, self.lock = Path(folder), feed, threading.Lock()
        self.folder.mkdir(parents=True, exist_ok=True)

    def add(self, run, place, payload):
        now = time.time()
        path = self.folder / f"{self.feed}.{day_of(now)}"
        with self.lock, open(path, "ab") as file:
            file.write(b"message %.6f %d %.6f %d\n%s\n" % (run, place, now, len(payload), payload))


def lines_of(path):
    """The messages of a file: run, place, time, and bytes. The last one may be cut, where the machine has failed."""
    with open(path, "rb") as file:
        for line in file:
            word, run, place, came, length = line.split()
            payload = file.read(int(length))
            if word != b"message" or file.read(1) != b"\n":
                return
            yield float(run), int(place), float(came), payload


def files_of(folder, feed):
    return sorted(Path(folder).glob(f"{feed}.????????"))


def run_before(folder, feed, moment):
    """The last run of a feed that began before a moment, nothing where there is none."""
    for path in reversed(files_of(folder, feed)):
        began = [run for run, place, _, _ in lines_of(path) if place == 0 and run < moment]
        if began:
            return max(began)
    return None


def arrivals(folder, feed, run, until):
    """The messages of a run that came up to a time, in their order."""
    for path in files_of(folder, feed):
        if day_of(run) <= path.suffix[1:] <= day_of(until):
            for of, place, came, payload in lines_of(path):
                if of == run and place > 0 and came <= until:
                    yield Arrival(came, feed, place, payload)
