#!/usr/bin/env python3
"""Whether two timetables have the same trips, however they say them: spelled out in stop_times.txt, or by frequencies.txt
with exact_times 1. Ids of trips are left aside. Prints the counts, and ends with status 0 where they are the same.

usage: compare_timetables.py FOLDER OTHER
"""
import csv
import sys
from collections import Counter, defaultdict
from pathlib import Path


def rows(folder, name):
    path = Path(folder) / name
    if not path.exists():
        return []
    with open(path, encoding="utf-8", newline="") as file:
        return list(csv.DictReader(file))


def seconds(text):
    hours, minutes, rest = map(int, text.split(":"))
    return 3600 * hours + 60 * minutes + rest


def starts_of(row):
    """start_time + x * headway_secs, as long as that is below end_time (GTFS reference, frequencies.txt)."""
    return range(seconds(row["start_time"]), seconds(row["end_time"]), int(row["headway_secs"]))


def trips_of(folder):
    """Each trip that runs, without its id: what trips.txt says of it, and its places with their times. It is counted how
    often there is one of the same."""
    said = {row.pop("trip_id"): tuple(sorted(row.items())) for row in rows(folder, "trips.txt")}
    places, starts = defaultdict(list), defaultdict(list)
    for row in rows(folder, "stop_times.txt"):
        places[row["trip_id"]].append((int(row["stop_sequence"]), row["stop_id"], row["pickup_type"],
                                       seconds(row["arrival_time"]), seconds(row["departure_time"])))
    for row in rows(folder, "frequencies.txt"):
        if row["exact_times"] != "1":
            sys.exit(f"{folder}: frequencies.txt has a row without exact_times 1, which names no trips")
        starts[row["trip_id"]] += starts_of(row)
    found = Counter()
    for trip, said_of in said.items():
        path = sorted(places[trip])
        leaves = path[0][4]
        for start in starts.get(trip, [leaves]):
            found[said_of, tuple((*place, arrives - leaves + start, departs - leaves + start)
                                 for *place, arrives, departs in path)] += 1
    return len(said), found


def main():
    (count, one), (other_count, other) = map(trips_of, sys.argv[1:])
    print(f"rows of trips.txt {count} and {other_count}, trips {one.total()} and {other.total()},"
          f" in one alone {((one - other) + (other - one)).total()}")
    sys.exit(0 if one == other else 1)


if len(sys.argv) != 3:
    sys.exit(__doc__)
main()
