#!/usr/bin/env python3
"""Writes a timetable to a folder, and its configuration next to that.

usage: make_timetable.py [--frequencies] TRIPS FOLDER [PLACES]

TRIPS trips of PLACES places each (20 where it is left out); the configuration is FOLDER.toml. With --frequencies trips
that differ in their times alone are one pattern, and frequencies.txt says with exact_times 1 when each of them starts:
compare_timetables.py shows that both say the same.
"""
import os, sys

words = [word for word in sys.argv[1:] if word != "--frequencies"]
if not 2 <= len(words) <= 3:
    sys.exit(__doc__)
trips, folder = int(words[0]), words[1]
places = int(words[2]) if len(words) > 2 else 20
by_patterns = len(words) < len(sys.argv) - 1
os.makedirs(folder)

DAY_MINUTES = 1440  # the trip k starts k minutes after midnight, and after a day of them they begin again
SAME_SHAPE = 300  # the trips k and k + 300 have the same route, direction and stops
SAME_START = 7200  # the trips k and k + 7200 start at the same time, too

def write(name, header, rows):
    with open(os.path.join(folder, name), "w") as out:
        out.write(header + "\n")
        out.writelines(row + "\n" for row in rows)

def clock(time):
    return "%02d:%02d:%02d" % (time // 3600, time // 60 % 60, time % 60)

def start(trip):
    return 60 * (trip % DAY_MINUTES)

# A pattern stands for trips of one shape that start at different times, and has the times of the first of them.
shown = [trip for trip in range(trips) if trip % SAME_START < SAME_SHAPE] if by_patterns else range(trips)
letter = "P" if by_patterns else "T"

write("agency.txt", "agency_id,agency_name", ["A,City"])
write("stops.txt", "stop_id,stop_name,location_type,parent_station", ("S%d,Stop %d,," % (i, i) for i in range(100)))
write("routes.txt", "route_id,agency_id,route_short_name,route_type", ("R%d,A,%d,3" % (i, i) for i in range(50)))
write("trips.txt", "route_id,service_id,trip_id,trip_headsign,direction_id",
      ("R%d,WK,%s%d,Hill,%d" % (i % 50, letter, i, i % 2) for i in shown))
write("calendar.txt", "service_id,monday,tuesday,wednesday,thursday,friday,saturday,sunday,start_date,end_date",
      ["WK,1,1,1,1,1,1,1,20250101,20991231"])

def times():
    for trip in shown:
        for place in range(places):
            at = clock(start(trip) + 120 * place)
            stop = (7 * trip + place * (1 + trip % 3)) % 100
            yield "%s%d,S%d,%d,%s,%s,0" % (letter, trip, stop, place + 1, at, at)

write("stop_times.txt", "trip_id,stop_id,stop_sequence,arrival_time,departure_time,pickup_type", times())

def frequencies():
    """A row for the trips of a pattern between one midnight and the next."""
    for pattern in shown:
        starts = {}
        for trip in range(pattern, min(trips, pattern - pattern % SAME_START + SAME_START), SAME_SHAPE):
            starts.setdefault(trip // DAY_MINUTES, []).append(start(trip))
        for day in starts.values():
            yield "P%d,%s,%s,%d,1" % (pattern, clock(day[0]), clock(day[-1] + 60), 60 * SAME_SHAPE)

if by_patterns:
    write("frequencies.txt", "trip_id,start_time,end_time,headway_secs,exact_times", frequencies())
with open(folder + ".toml", "w") as out:
    out.write('[[schedule]]\nname = "city"\nfolder = "%s"\nzone = "CET-1CEST,M3.5.0,M10.5.0/3"\n'
              'first = "20250329"\ndays = 3\n' % folder)
