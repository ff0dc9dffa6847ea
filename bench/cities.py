"""How fast a running hub answers for a board of a large city with many live runs, next to one of a city of three trips,
for running.sh.

usage: cities.py PROGRAM [SECONDS]   the seconds of each measurement, by default 3

A board has five rows, or as many as a day of the small city has. Two readers are at work, for a connection of wrk each,
and the two hubs take turns. The numbers are those of wrk: answers a second, the best of five turns.
"""
import re
import shutil
import subprocess
import sys

from running_hub import FIRST, Hub, Sender, entities_of, frames, header, late, made_trips

TRIPS, LIVE, TURNS = 20_000, 3_000, 5


def answers(hub, seconds):
    """How many answers a second it gives."""
    url = f"http://{hub.address}/board/city/S50?limit=5&span=86400"
    words = ["wrk", "-t", "2", "-c", "2", "-d", str(seconds), url]
    said = subprocess.run(words, capture_output=True, text=True, check=True).stdout
    if "Non-2xx" in said or "Socket errors" in said:
        sys.exit(f"cities.py: not all was answered:\n{said}")
    return float(re.search(r"Requests/sec:\s+([\d.]+)", said).group(1))


def live(trips):
    """A hub's sender, with a whole data set of these trips."""
    pairs = [late(trip, (37 * k) % 600, range(1, 21)) for k, trip in enumerate(trips)]
    sender = Sender([frames([header(FIRST, whole=True) + entities_of(pairs)])])
    sender.begin.set()
    return sender


def main():
    if not shutil.which("wrk"):
        sys.exit("cities.py: it needs wrk")
    seconds = int(sys.argv[2]) if len(sys.argv) > 2 else 3
    senders = [live(made_trips(3)), live(made_trips(TRIPS)[:LIVE])]
    hubs = [Hub(sys.argv[1], trips, 2, [sender]) for trips, sender in zip((3, TRIPS), senders)]
    for hub in hubs:
        hub.wait_for(1)
    rates = [[answers(hub, seconds) for hub in hubs] for _ in range(TURNS)]
    small, large = (max(rates) for rates in zip(*rates))
    bodies = [hub.ask("/board/city/S50?limit=5&span=86400") for hub in hubs]
    for sender, hub in zip(senders, hubs):
        hub.close()
        sender.close()
    rows = [body.count(b"\n") - 2 for body in bodies]
    print(f"answers a second for a board of {rows[0]} rows of a city of 3 trips: {small:,.0f};"
          f" of {rows[1]} rows of one of {TRIPS:,}, {LIVE:,} of them live: {large:,.0f}; {large / small:.2f} of that")


main()
