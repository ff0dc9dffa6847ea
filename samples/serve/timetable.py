#!/usr/bin/env python3
"""Writes the timetable of the example to a folder: trams and buses around the clock, on every day.

usage: timetable.py FOLDER
"""
import sys
from pathlib import Path

STOPS = [("ST", "Market", "1", ""), ("S1", "Market A", "0", "ST"), ("S2", "Market B", "0", "ST"),
         ("S3", "Harbour", "", ""), ("S4", "Hill", "", ""), ("S5", "Botanical Garden", "", ""),
         ("S6", "Lido", "", "")]  # nothing calls at the Lido
ROUTES = [("R7", "7", "0"), ("R12", "12", "3")]
# Of each line and direction: its route, the letter of its trips, the headsign, the direction, the minutes from one
# trip to the next and to the first, and its places, each with the minutes since the first.
LINES = [
    ("R7", "H", "Hill", 0, 20, 3, [("S1", 0), ("S3", 6), ("S4", 14)]),
    ("R7", "P", "Harbour", 1, 20, 11, [("S4", 0), ("S2", 9), ("S3", 15)]),
    ("R12", "G", "Botanical Garden via University Hospital", 0, 30, 8, [("S3", 0), ("S1", 5), ("S5", 17)]),
    ("R12", "R", "Harbour", 1, 30, 20, [("S5", 0), ("S2", 12), ("S3", 18)]),
]
DAY = 24 * 60


def clock(minutes):
    return f"{minutes // 60:02d}:{minutes % 60:02d}:00"


def trips():
    """Each trip: its id, its line, and the minute at which it begins."""
    for line in LINES:
        route, letter, _, _, every, first, _ = line
        for begin in range(first, DAY, every):
            yield f"{route[1:]}{letter}{clock(begin)[:5].replace(':', '')}", line, begin


def write(folder, name, header, rows):
    with open(folder / name, "w", encoding="utf-8") as out:
        out.write(header + "\n")
        out.writelines(",".join(map(str, row)) + "\n" for row in rows)


def main():
    folder = Path(sys.argv[1])
    folder.mkdir(parents=True, exist_ok=True)
    write(folder, "agency.txt", "agency_id,agency_name", [("A", "City")])
    write(folder, "stops.txt", "stop_id,stop_name,location_type,parent_station", STOPS)
    write(folder, "routes.txt", "route_id,agency_id,route_short_name,route_type",
          ((route, "A", short, kind) for route, short, kind in ROUTES))
    write(folder, "trips.txt", "route_id,service_id,trip_id,trip_headsign,direction_id",
          ((line[0], "DAILY", trip, line[2], line[3]) for trip, line, _ in trips()))
    write(folder, "stop_times.txt", "trip_id,arrival_time,departure_time,stop_id,stop_sequence",
          ((trip, clock(begin + after), clock(begin + after), stop, place + 1)
           for trip, line, begin in trips() for place, (stop, after) in enumerate(line[6])))
    write(folder, "calendar.txt",
          "service_id,monday,tuesday,wednesday,thursday,friday,saturday,sunday,start_date,end_date",
          [("DAILY", 1, 1, 1, 1, 1, 1, 1, 20250101, 29991231)])


main()
