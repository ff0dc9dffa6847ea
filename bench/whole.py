"""How long a running hub takes for a whole data set, for running.sh.

usage: whole.py PROGRAM [ROUNDS]   the data sets of each size, by default 15

From the last byte of a data set to the first status that counts it: by a hub whose threads may use all processors, and by
one each of whose threads is kept to a processor of its own, so that a data set is made by one at a time. The medians, and
how many times as long it takes the second.
"""
import http.client
import os
import statistics
import sys
import time

from running_hub import FIRST, Hub, Sender, entities_of, frames, header, late, made_trips

PROGRAM = sys.argv[1]
ROUNDS = int(sys.argv[2]) if len(sys.argv) > 2 else 15
SIZES = (2_047, 2_048, 3_000, 10_000, 30_000)
LARGEST = 30_000


class Timed(Sender):
    """Sends a part each time that it is told to, and notes when the last byte was gone."""

    def send(self):
        link, _ = self.listener.accept()
        for part in self.parts:
            self.begin.wait()
            self.begin.clear()
            if self.end.is_set():
                break
            link.sendall(part)
            self.gone = time.monotonic()
        link.close()

    def begun(self):
        self.gone = None
        self.begin.set()


def data_sets(size, first):
    """As many whole data sets of that size, each as late as the trips are then."""
    trips = made_trips(size)
    return [frames([header(first + m, whole=True)
                    + entities_of([late(trip, (m * 37 + k * 11) % 600) for k, trip in enumerate(trips)])])
            for m in range(ROUNDS)]


def took(hub, sender, count, link):
    """Seconds from the last byte of the next data set to the first status that counts it."""
    sender.begun()
    while True:
        link.request("GET", "/status")
        accepted = int(link.getresponse().read().split(b"\n")[0].split(b"\t")[1])
        if accepted >= count and sender.gone is not None:
            return time.monotonic() - sender.gone


def keep_apart(hub):
    """Keeps each thread of the hub to a processor of its own, and so the threads that it starts."""
    for place, thread in enumerate(os.listdir(f"/proc/{hub.process.pid}/task")):
        os.sched_setaffinity(int(thread), {place % os.cpu_count()})


def medians(apart):
    """The median for each size, of a hub whose threads are kept apart or not."""
    parts = [part for place, size in enumerate(SIZES) for part in data_sets(size, FIRST + place * ROUNDS)]
    sender = Timed(parts)
    hub = Hub(PROGRAM, LARGEST, 1, [sender])
    hub.wait_for(0)
    if apart:
        keep_apart(hub)
    link = http.client.HTTPConnection(hub.address, timeout=60)
    seconds = [took(hub, sender, count + 1, link) for count in range(len(parts))]
    link.close()
    sender.close()
    hub.close()
    return [statistics.median(seconds[place * ROUNDS:(place + 1) * ROUNDS]) for place in range(len(SIZES))]


def main():
    for size, many, one in zip(SIZES, medians(False), medians(True)):
        print(f"a whole data set of {size:,}: {many * 1000:.1f} ms on all processors, {one * 1000:.1f} ms by one thread, "
              f"{one / many:.2f} times as long", flush=True)


main()
