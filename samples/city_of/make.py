#!/usr/bin/env python3
"""Writes the timetable of a made-up city to a folder: about 2,000 stops and 20,000 trips a week, the same each time.

usage: make.py FOLDER

The city is a disc of blocks; lines cross it, and where two lines come through one block they share a station. So there
are stations with platforms, termini and headsigns as a city has them. All trips run around the clock of each day: metro,
trams and buses until half past midnight, and night buses from then on, as times after 24:00:00.
"""
import datetime
import math
import random
import sys
from pathlib import Path
from typing import NamedTuple

BLOCK = 0.4  # kilometres; two points of one block are one station
METRO, TRAM, BUS = 1, 0, 3  # route_type
# Of each type: kilometres an hour with halts, kilometres from halt to halt.
PACE = {METRO: (32, 0.9), TRAM: (19, 0.45), BUS: (21, 0.5)}
PEAK, DAY, EVENING = "peak", "day", "evening"
# Of each service: what kind of hour begins when, up to half past midnight.
HOURS = {
    "WEEKDAY": [(4.75, EVENING), (6, PEAK), (9, DAY), (15, PEAK), (19, DAY), (21, EVENING), (24.5, None)],
    "SATURDAY": [(5, EVENING), (8, DAY), (21, EVENING), (24.5, None)],
    "SUNDAY": [(6, EVENING), (10, DAY), (20, EVENING), (24.5, None)],
}
DAYS = {"WEEKDAY": "1,1,1,1,1,0,0", "SATURDAY": "0,0,0,0,0,1,0", "SUNDAY": "0,0,0,0,0,0,1"}
HOLIDAYS = [(1, 1), (5, 1), (12, 25), (12, 26)]  # on which trips run as on Sundays
YEARS = range(2024, 2041)
# Minutes from one trip of a line to the next.
EVERY = {METRO: {PEAK: 7.5, DAY: 10, EVENING: 15}, TRAM: {PEAK: 10, DAY: 20, EVENING: 30},
         BUS: {PEAK: 30, DAY: 60, EVENING: 60}}
NIGHT_BEGINS, NIGHT_EVERY = 24 * 60 + 45, {"WEEKDAY": 60, "SATURDAY": 30, "SUNDAY": 60}

# Metro and tram lines: name, colour, where they turn (kilometres from the centre and degrees), and by way of what.
CROSSING = [
    ("U1", "1B4F9C", METRO, (9.5, 15), (8, 200), (0, 0)), ("U2", "B0251C", METRO, (9, 78), (8.5, 255), (0, 0)),
    ("U3", "1E7A3C", METRO, (8, 140), (9, 318), (0, 0)),
    ("1", "C8102E", TRAM, (5.5, 40), (5, 230), (0.8, 0.4)), ("2", "B85A00", TRAM, (6, 100), (5.5, 290), (0, 0)),
    ("3", "7A3E9D", TRAM, (5, 165), (6, 350), (0.8, 0.4)), ("4", "00857C", TRAM, (6, 205), (4.5, 60), (-0.8, -0.4)),
    ("5", "9C6B1E", TRAM, (5, 270), (5.5, 125), (-0.8, -0.4)), ("6", "4A5560", TRAM, (6, 320), (6, 180), (0, 0)),
]
TURNS = """Airport|Harbour|University|Stadium|Lakeside|Exhibition Centre|Zoo|Botanical Garden|General Hospital|
Old Brewery|Forest Cemetery|Science Park|Observatory|Ferry Landing|Racecourse|Waterworks|Windmill|Fort
""".replace("\n", "").split("|")
KNOWN = {(0, 0): "Central Station", (0.8, 0.4): "Market", (-0.8, -0.4): "Town Hall", (0.4, 0.4): "Opera",
         (-0.4, 0): "Old Bridge", (0.4, -0.4): "Post Office", (-0.4, 0.4): "Cathedral", (0, 0.4): "Theatre"}
FIRST = """Linden Mill Weaver Castle Abbey Orchard Baker Cooper Fisher Garden King Queen Bishop Rose Poplar Maple Birch
Chestnut Willow Elm Meadow River Brook Quarry Vineyard Potter Tanner Smith Miller Saddler Mason Glass Copper Silver Iron
Swan Heron Falcon Nightingale Lark Fox Stag Hazel Juniper Ivy Clover Thistle Heather Lantern Anchor""".split()
SECOND = "Street Road Lane Square Bridge Gate Park Green Row Hill Church School Steps Fields Corner Yard".split()
DISTRICTS = """Ashford Birkwood Clayton Dunmore Elmstead Farnley Gransby Holcombe Ingleton Kelbrook Langdale Marston
Norwell Oakham Penbury Quenby Ravensdale Selwick Thornby Ulverton Wexcombe Yarrow Aldergate Brackley Cranmoor Dereham
Eastwick Fallowfield Grimsdale Hartwell""".split()


class Line(NamedTuple):
    """A line and the stations at which it calls, from the first terminus to the last."""
    name: str
    colour: str
    kind: int
    stations: list


class Station:
    """A place with platforms: a pair for each metro line, one for all trams, one for all buses."""

    def __init__(self, x, y):
        self.x, self.y, self.name, self.platforms = x, y, None, {}

    def id(self):
        return self.name.lower().replace(" ", "-")

    def platform(self, line, direction):
        """The stop_id of the platform at which a line leaves: metro platforms have numbers, others letters."""
        key = (line.name if line.kind == METRO else line.kind, direction)
        if key not in self.platforms:
            others = sum((other[0] in (TRAM, BUS)) == (line.kind != METRO) for other in self.platforms)
            self.platforms[key] = str(others + 1) if line.kind == METRO else "ABCD"[others]
        return f"{self.id()}:{self.platforms[key]}"


def polar(point):
    """Where a point is that is given by its distance from the centre and its degrees."""
    return point[0] * math.cos(math.radians(point[1])), point[0] * math.sin(math.radians(point[1]))


def block_of(x, y):
    return round(x / BLOCK), round(y / BLOCK)


class City:
    def __init__(self):
        self.stations, self.lines = {}, []

    def station(self, x, y):
        block = block_of(x, y)
        return self.stations.setdefault(block, Station(block[0] * BLOCK, block[1] * BLOCK))

    def lay(self, name, colour, kind, points):
        """A line along these points, with a halt each so many kilometres."""
        halts = []
        for (x, y), (next_x, next_y) in zip(points, points[1:]):
            count = max(1, round(math.dist((x, y), (next_x, next_y)) / PACE[kind][1]))
            for step in range(count + 1):
                part = step / count
                halt = self.station(x + part * (next_x - x), y + part * (next_y - y))
                if halt not in halts:
                    halts.append(halt)
        self.lines.append(Line(name, colour, kind, halts))

    def build(self):
        """First what crosses the city, then buses from quarter to quarter, and those that run by night."""
        for name, colour, kind, one, other, via in CROSSING:
            self.lay(name, colour, kind, [polar(one), via, polar(other)])
        for number in range(27):
            turn = number * 137  # so that no two begin alike
            begin = polar((6 + number % 4, turn))
            middle = polar((2 + number % 3, turn + 35))
            self.lay(str(20 + number), "5B6770", BUS, [begin, middle, polar((4.5 + number % 5, turn + 70))])
        for number in range(6):
            self.lay(f"N{number + 1}", "101820", BUS, [(0, 0), polar((7, 60 * number + 20))])
        self.give_names()

    def give_names(self):
        """Known places first, then termini, then a street for each station that has no name yet."""
        for point, name in KNOWN.items():
            if block_of(*point) in self.stations:
                self.station(*point).name = name
        turns = iter(TURNS)
        quarters = iter(f"{district} {part}" for part in ("Church", "Park", "School") for district in DISTRICTS)
        for line in self.lines:
            for end in (line.stations[0], line.stations[-1]):
                end.name = end.name or next(quarters if line.kind == BUS else turns)
        streets = [f"{first} {second}" for first in FIRST for second in SECOND]
        random.Random(5).shuffle(streets)
        for station, street in zip(self.stations.values(), streets):
            station.name = station.name or street


def minutes_of(line):
    """The minutes from the first station to each."""
    speed, passed, out = PACE[line.kind][0], 0, [0]
    for one, other in zip(line.stations, line.stations[1:]):
        passed += math.dist((one.x, one.y), (other.x, other.y)) / speed * 60
        out.append(max(out[-1] + 1, round(passed)))
    return out


def begins(line, service, offset):
    """The minutes of the day at which trips of a line and direction begin."""
    if line.name.startswith("N"):
        yield from range(NIGHT_BEGINS, NIGHT_BEGINS + 240, NIGHT_EVERY[service])
        return
    hours = HOURS[service]
    at = hours[0][0] * 60 + offset
    for (_, kind), (ends, _) in zip(hours, hours[1:]):
        while at < ends * 60:
            yield int(at)
            at += EVERY[line.kind][kind]


def clock(minute):
    return f"{minute // 60:02d}:{minute % 60:02d}:00"


def trips(city):
    """Each trip: its id, line, service, direction, stations and the minute of the day at which it is at each."""
    for number, line in enumerate(city.lines):
        for direction in (0, 1):
            stations, after = line.stations, minutes_of(line)
            if direction:
                stations, after = stations[::-1], [after[-1] - minute for minute in after[::-1]]
            for service in HOURS:
                for begin in begins(line, service, (number * 7 + direction * 4) % 13):
                    name = f"{line.name}-{direction}{service[:2]}-{clock(begin)[:5].replace(':', '')}"
                    yield name, line, service, direction, stations, [begin + minute for minute in after]


def write(folder, name, header, rows):
    with open(folder / name, "w", encoding="utf-8") as out:
        out.write(header + "\n")
        count = 0
        for row in rows:
            out.write(",".join(map(str, row)) + "\n")
            count += 1
    return count


def stop_rows(city):
    """Stations with their platforms. Asked for after the stop times, by which platforms come to be."""
    for station in city.stations.values():
        place = f"{52.4 + station.y / 111.2:.5f},{9.7 + station.x / 67.9:.5f}"
        yield station.id(), station.name, place, 1, "", ""
        for platform in sorted(station.platforms.values()):
            yield f"{station.id()}:{platform}", station.name, place, 0, station.id(), platform


def holidays():
    """On a holiday the service of its weekday doesn't run (2), and that of Sundays does (1)."""
    for year in YEARS:
        for month, day in HOLIDAYS:
            date = datetime.date(year, month, day)
            if date.weekday() < 6:
                yield "SATURDAY" if date.weekday() == 5 else "WEEKDAY", f"{date:%Y%m%d}", 2
                yield "SUNDAY", f"{date:%Y%m%d}", 1


def main():
    folder = Path(sys.argv[1])
    folder.mkdir(parents=True, exist_ok=True)
    city = City()
    city.build()
    made = list(trips(city))
    write(folder, "stop_times.txt", "trip_id,arrival_time,departure_time,stop_id,stop_sequence",
          ((name, clock(minute), clock(minute), station.platform(line, direction), place + 1)
           for name, line, _, direction, stations, minutes in made
           for place, (station, minute) in enumerate(zip(stations, minutes))))
    write(folder, "trips.txt", "route_id,service_id,trip_id,trip_headsign,direction_id",
          ((line.name, service, name, stations[-1].name, direction)
           for name, line, service, direction, stations, _ in made))
    stops = write(folder, "stops.txt", "stop_id,stop_name,stop_lat,stop_lon,location_type,parent_station,platform_code",
                  stop_rows(city))
    write(folder, "routes.txt",
          "route_id,agency_id,route_short_name,route_long_name,route_type,route_color,route_text_color",
          ((line.name, "city", line.name, f"{line.stations[0].name} - {line.stations[-1].name}", line.kind, line.colour,
            "FFFFFF") for line in city.lines))
    write(folder, "agency.txt", "agency_id,agency_name,agency_url,agency_timezone",
          [("city", "City Transport", "https://city.example", "Europe/Berlin")])
    write(folder, "calendar.txt",
          "service_id,monday,tuesday,wednesday,thursday,friday,saturday,sunday,start_date,end_date",
          ((service, days, f"{YEARS[0]}0101", f"{YEARS[-1]}1231") for service, days in DAYS.items()))
    write(folder, "calendar_dates.txt", "service_id,date,exception_type", holidays())
    week = sum(DAYS[service].count("1") for _, _, service, *_ in made)
    print(f"make.py: {stops} stops, {len(city.lines)} lines, {len(made)} trips, {week} of them run in a week")


if len(sys.argv) != 2:
    sys.exit(__doc__)
main()
