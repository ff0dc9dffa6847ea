"""What a running hub takes of memory and processors, by the size of its timetable and of its feed, for running.sh.

usage: sizes.py PROGRAM [TRIPS:ENTITIES ..]   by default 5000:300 5000:3000 50000:3000 50000:30000 200000:30000

For each: the seconds until it listens, its memory then, at most while whole data sets come in and boards are asked for,
and the processor's milliseconds for a data set and for a board of an hour.
"""
import sys
import time

from running_hub import FIRST, Hub, Sender, entities_of, frames, header, late, made_trips

SETS, BOARDS = 10, 20
SIZES = [tuple(map(int, word.split(":"))) for word in sys.argv[2:]] or [
    (5000, 300), (5000, 3000), (50000, 3000), (50000, 30000), (200000, 30000)]


def data_sets(entities):
    """Whole data sets of that many trips."""
    trips = made_trips(entities)
    turns = [entities_of([late(trip, (m * 37 + k * 11) % 600) for k, trip in enumerate(trips)]) for m in range(2)]
    return [frames([header(FIRST + m, whole=True) + turns[m % 2]]) for m in range(SETS)]


def measure(trips, entities):
    sender = Sender(data_sets(entities))
    began = time.monotonic()
    hub = Hub(sys.argv[1], trips, 1, [sender])
    hub.accepted()
    started = time.monotonic() - began
    alone, before = hub.memory()[0], hub.seconds()
    sender.begin.set()
    hub.wait_for(SETS, 0.2)
    taken = (hub.seconds() - before) * 1000 / SETS
    before = hub.seconds()
    for place in range(BOARDS):
        hub.ask(f"/board/city/S{place}")
    board = (hub.seconds() - before) * 1000 / BOARDS
    print(f"  {20 * trips:>9,} stop times, {entities:>6,} entities: listens after {started:.1f} s with {alone:.0f} MiB,"
          f" at most {hub.memory()[1]:.0f}; {taken:.0f} ms a data set, {board:.1f} a board")
    sender.close()
    hub.close()


def main():
    print("a hub with one feed of whole data sets, by stop times of its timetable and entities of its feed")
    for trips, entities in SIZES:
        measure(trips, entities)


main()
