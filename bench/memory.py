"""The memory of a running hub with two feeds of 3,000 entities each, for running.sh.

usage: memory.py PROGRAM

An hour's worth of whole data sets, one each ten seconds, is sent as fast as the hub takes them. It is run with one heap
for all threads, as samples/operating/hub@.service has it, and then as the C library has it by itself.
"""
import os
import sys
import time

from running_hub import FIRST, Hub, Sender, entities_of, frames, header, late, made_trips

TRIPS, ENTITIES, MESSAGES = 6000, 3000, 360


def data_sets(feed):
    """The messages of a feed: all its trips, in turns of ten as late as they are then."""
    trips = made_trips(TRIPS)[feed * ENTITIES:][:ENTITIES]
    turns = [entities_of([late(trip, (m * 37 + k * 11) % 600) for k, trip in enumerate(trips)]) for m in range(10)]
    return (frames([header(FIRST + m, whole=True) + turns[m % 10]]) for m in range(MESSAGES))


def memory_until(hub, count):
    """The mean and the most of what it has until it has accepted so many messages, in MiB; it is looked at each hundredth
    second."""
    seen = []
    while not seen or hub.accepted() < count:
        for _ in range(5):
            seen.append(hub.memory()[0])
            time.sleep(0.01)
    return sum(seen) / len(seen), max(seen)


def run():
    """Sends all messages to a new hub, and prints what it takes meanwhile."""
    senders = [Sender(data_sets(feed)) for feed in range(2)]
    hub = Hub(sys.argv[1], TRIPS, 2, senders)
    print(f"  with its timetable of {20 * TRIPS:,} stop times alone: {hub.memory()[0]:.0f} MiB")
    for sender in senders:
        sender.begin.set()
    means, most = zip(*(memory_until(hub, 2 * MESSAGES * tenths // 10) for tenths in range(1, 11)))
    print("  in each tenth of the messages, in the mean: " + ", ".join(f"{mean:.1f}" for mean in means) + " MiB")
    print("  at most: " + ", ".join(f"{each:.1f}" for each in most) + " MiB")
    print(f"  growth from the most of the first tenth to the most of the last: {most[9] / most[0]:.2f}")
    print(f"  {hub.seconds():.1f} s of CPU")
    for sender in senders:
        sender.close()
    hub.close()


def main():
    size = len(next(data_sets(0)))
    print(f"two feeds of {ENTITIES:,} entities, of each {MESSAGES} whole data sets of {size:,} bytes; with one heap:")
    os.environ["MALLOC_ARENA_MAX"] = "1"
    run()
    print("as the C library has it:")
    del os.environ["MALLOC_ARENA_MAX"]
    run()


main()
