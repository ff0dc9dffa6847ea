#!/usr/bin/env python3
"""Sends what happens in the made-up city to hubs, as GTFS Realtime: a feed each of metro, trams and buses.

usage: send.py CONFIG FOLDER ADDRESS ADDRESS ADDRESS

FOLDER has the timetable that make.py wrote; CONFIG says its zone. The feeds are at the three addresses (HOST:PORT, 0 for
a port that is free), and each is said on standard error. A hub that connects is sent all that there is to say
(FULL_DATASET), then each ten seconds what has changed (DIFFERENTIAL), and once a minute all again.

What happens follows from the clock alone: a sender that is started again says the same. Vehicles are late in the rush
hours, more so on a line with a disturbance, and get rid of it towards their terminus; some trips are canceled, some leave
a station from the other platform, some run in addition; alerts begin and end. The bus feed says a few things that fit no
timetable, as real ones do.
"""
import bisect
import csv
import hashlib
import math
import os
import socket
import struct
import sys
import threading
import time
import tomllib
from pathlib import Path
from typing import NamedTuple

sys.path.insert(0, str(Path(__file__).resolve().parent.parent / "serve"))
from wire import number, run  # the bytes of a number's field, and of a text's or a message's

KINDS = {"metro": "1", "trams": "0", "buses": "3"}  # route_type
DAY, HOUR = 24 * 60 * 60, 60 * 60
AHEAD = 30 * 60  # seconds before its first departure from which on a trip is spoken of
AGAIN_SECONDS, WHOLE_EACH = 10, 6
ADDED, UNSCHEDULED, CANCELED = 1, 2, 3  # of a trip
OTHER, TECHNICAL, MAINTENANCE, CONSTRUCTION = 2, 3, 9, 10  # causes of an alert
DELAYS, MODIFIED, ACCESSIBILITY = 3, 6, 11  # its effects
DISTURBED_EACH, DISTURBED_FOR = 40 * 60, 25 * 60
EXTRA_EACH = 20 * 60


def chance(*words):
    """A number from 0 to 1 that is always the same for these words."""
    digest = hashlib.blake2b("|".join(map(str, words)).encode(), digest_size=6).digest()
    return int.from_bytes(digest, "big") / (1 << 48)


def chosen(items, *words):
    return items[int(chance(*words) * len(items))]


def rows(folder, name):
    with open(folder / name, encoding="utf-8", newline="") as file:
        return list(csv.DictReader(file))


def seconds(text):
    hours, minutes, rest = map(int, text.split(":"))
    return hours * 3600 + minutes * 60 + rest


def midnight(now, days=0):
    """Where the times of the service day count from, twelve hours before noon, and its date (GTFS Schedule, Time)."""
    day = time.localtime(now + days * DAY)
    noon = time.mktime((day.tm_year, day.tm_mon, day.tm_mday, 12, 0, 0, 0, 0, -1))
    return int(noon) - DAY // 2, time.strftime("%Y%m%d", day)


class Trip(NamedTuple):
    name: str
    line: str
    service: str
    stops: list  # the stop_id of each place
    leaves: list  # and its seconds after midnight


class Timetable:
    """The trips by route_type, and which services run on a date."""

    def __init__(self, folder):
        kind_of = {row["route_id"]: row["route_type"] for row in rows(folder, "routes.txt")}
        places = {}
        for row in rows(folder, "stop_times.txt"):
            places.setdefault(row["trip_id"], []).append((row["stop_id"], seconds(row["departure_time"])))
        self.trips = {kind: [] for kind in KINDS.values()}
        for row in rows(folder, "trips.txt"):
            stops, leaves = map(list, zip(*places[row["trip_id"]]))
            self.trips[kind_of[row["route_id"]]].append(
                Trip(row["trip_id"], row["route_id"], row["service_id"], stops, leaves))
        self.weeks = {row["service_id"]: row for row in rows(folder, "calendar.txt")}
        self.exceptions = {(row["service_id"], row["date"]): row["exception_type"]
                           for row in rows(folder, "calendar_dates.txt")}
        self.stops = {row["stop_id"] for row in rows(folder, "stops.txt")}

    def runs(self, service, date):
        said = self.exceptions.get((service, date))
        weekday = time.strftime("%A", time.strptime(date, "%Y%m%d")).lower()
        return said == "1" if said else self.weeks[service][weekday] == "1"

    def near(self, kind, now):
        """The runs of a type that are under way or begin soon: each trip with its date and its midnight."""
        for days in (-1, 0, 1):
            begin, date = midnight(now, days)
            services = {service for service in self.weeks if self.runs(service, date)}
            for trip in self.trips[kind]:
                if trip.service in services and begin + trip.leaves[0] - AHEAD <= now < begin + trip.leaves[-1] + 1200:
                    yield trip, date, begin


def alert(cause, effect, text, about, *periods):
    """The payload of an entity; `about` names routes by field 2 of their selector and stops by field 5."""
    whens = b"".join(run(1, number(1, begin) + number(2, end)) for begin, end in periods)
    abouts = b"".join(run(5, run(field, name.encode())) for field, name in about)
    return run(5, whens + abouts + number(6, cause) + number(7, effect) + run(10, run(1, run(1, text.encode()))))


def about_trip(name, date, relation=0):
    return run(1, name.encode()) + run(3, date.encode()) + number(4, relation)


def update(trip, *places):
    return run(3, run(1, trip) + b"".join(run(2, place) for place in places))


class Feed:
    """What one of the feeds has to say at a time: the payload of each entity by its id."""

    def __init__(self, name, timetable):
        self.name, self.timetable, self.kind = name, timetable, KINDS[name]
        self.lines = sorted({trip.line for trip in timetable.trips[self.kind] if not trip.line.startswith("N")})

    def disturbances(self, now):
        """The lines with a fault about now, and from when to when: the last one, this one and the next."""
        for count in range(int(now) // DISTURBED_EACH - 1, int(now) // DISTURBED_EACH + 2):
            begin = count * DISTURBED_EACH + int(chance(self.name, "fault", count) * 600)
            yield chosen(self.lines, self.name, "line", count), begin, begin + DISTURBED_FOR

    def delay(self, trip, date, now):
        """Seconds, by halves of a minute: what this trip has of the rush hours, what its line's fault adds, and some
        unrest."""
        local = time.localtime(now)
        hour = local.tm_hour + local.tm_min / 60
        rush = 0.4 + 1.6 * math.exp(-((hour - 8) / 1.2) ** 2) + 2 * math.exp(-((hour - 17) / 1.6) ** 2)
        bent = chance(trip.name, date) ** 2
        late = 100 * rush * bent + 35 * math.sin(now / 400 + 40 * bent)
        for line, begin, end in self.disturbances(now):
            if line == trip.line:
                late += 300 * max(0, 1 - abs(now - (begin + end) / 2) / (end - begin))
        return 30 * round(late / 30)

    def of_run(self, trip, date, begin, now):
        """The update of a run: its next departure, and the delay that is left towards the terminus."""
        if chance("canceled", trip.name, date) < 0.04:
            return update(about_trip(trip.name, date, CANCELED))
        late = self.delay(trip, date, now)
        place = bisect.bisect_right(trip.leaves, now - begin - late)
        if place == 0:
            late = max(0, late // 60 * 30)  # nobody leaves a terminus early
        if place >= len(trip.leaves):
            return None
        said = {place: number(1, place + 1) + run(3, number(1, late))}
        later = place + (len(trip.leaves) - place) * 2 // 3
        if later > place and late > 0:
            said[later] = number(1, later + 1) + run(3, number(1, late // 60 * 30))
        moved, platform = self.moved(trip, date)
        if moved is not None and moved >= place:
            said[moved] = said.get(moved, number(1, moved + 1)) + run(6, run(1, platform.encode()))
        return update(about_trip(trip.name, date), *(said[place] for place in sorted(said)))

    def moved(self, trip, date):
        """Some trips leave one station from the platform of the other direction."""
        if chance("moved", trip.name, date) >= 0.03:
            return None, None
        place = int(chance("moved at", trip.name, date) * (len(trip.stops) - 1))
        station, _, platform = trip.stops[place].partition(":")
        other = f"{station}:{dict(zip('ABCD123456', 'BADC214365'))[platform]}"
        return (place, other) if other in self.timetable.stops else (None, None)

    def extra(self, now):
        """Trips in addition by day, each as one of the line that begins at about its time."""
        for begin in range(int(now) // EXTRA_EACH * EXTRA_EACH - 2 * HOUR, int(now) + AHEAD + 1, EXTRA_EACH):
            if not 6 <= time.localtime(begin).tm_hour < 23:
                continue
            line = chosen(self.lines, self.name, "extra", begin)
            trips = [trip for trip in self.timetable.trips[self.kind] if trip.line == line]
            model = chosen(trips, self.name, "model", begin)
            leaves = [begin + leave - model.leaves[0] for leave in model.leaves]
            place = bisect.bisect_right(leaves, now)
            if place >= len(leaves):
                continue
            named = f"extra-{line}-{time.strftime('%H%M', time.localtime(begin))}"
            calls = zip(leaves[place:], model.stops[place:])
            yield named, update(run(1, named.encode()) + number(4, ADDED) + run(5, line.encode()),
                                *(run(3, number(2, leave)) + run(4, stop.encode()) for leave, stop in calls))

    def alerts(self, now):
        for line, begin, end in self.disturbances(now):
            yield f"fault-{line}-{begin}", alert(
                TECHNICAL, DELAYS, f"Line {line}: delays of up to six minutes after a fault of the signals.",
                [(2, line)], (begin, end))
        if self.name == "metro":
            text = "Central Station: the lift to platforms 1 and 2 is out of order."
            yield "lift", alert(MAINTENANCE, ACCESSIBILITY, text, [(5, "central-station")])
        elif self.name == "trams":
            text = "Line 3: works on the track at Market from 20:00 to 04:00; trams run slowly."
            yield "works", alert(CONSTRUCTION, MODIFIED, text, [(2, "3")], *self.daily(now, 20, 28))
        else:
            text = "Market days: until 14:00 buses may come late to the Market."
            yield "market", alert(OTHER, DELAYS, text, [(5, "market")], *self.daily(now, 7, 14, (2, 5)))

    def daily(self, now, begin, end, weekdays=range(7)):
        """Periods between two hours of these weekdays, from yesterday to a week ahead."""
        for days in range(-1, 8):
            day, date = midnight(now, days)
            if time.strptime(date, "%Y%m%d").tm_wday in weekdays:
                yield day + begin * HOUR, day + end * HOUR

    def unmatched(self, now):
        """A shuttle without a timetable, a trip of the control room, and one that doesn't run today."""
        _, date = midnight(now)
        resting = next(trip for trip in self.timetable.trips[self.kind] if not self.timetable.runs(trip.service, date))
        yield "shuttle", update(about_trip("shuttle", date, UNSCHEDULED))
        yield "control-room-17", update(about_trip("control-room-17", date))
        yield resting.name, update(about_trip(resting.name, date))

    def said(self, now):
        said = dict(self.alerts(now)) | dict(self.extra(now))
        if self.name == "buses":
            said |= self.unmatched(now)
        for trip, date, begin in self.timetable.near(self.kind, now):
            payload = self.of_run(trip, date, begin, now)
            if payload is not None:
                said[f"{trip.name}-{date}"] = payload
        return said


def message(stamp, said, before):
    """All that is said where there was nothing before, else what has changed since."""
    head = run(1, run(1, b"2.0") + number(2, before is not None) + number(3, stamp))
    news = {name: payload for name, payload in said.items() if before is None or before.get(name) != payload}
    gone = [] if before is None else [name for name in before if name not in said]
    return head + b"".join(run(2, run(1, name.encode()) + payload) for name, payload in news.items()) \
        + b"".join(run(2, run(1, name.encode()) + number(2, 1)) for name in gone)


def serve(feed, link):
    """Sends to one hub, until it is gone."""
    before = None
    with link:
        for count in range(1 << 62):
            stamp = int(time.time())
            said = feed.said(stamp)
            payload = message(stamp, said, None if count % WHOLE_EACH == 0 else before)
            before = said
            try:
                link.sendall(struct.pack(">I", len(payload)) + payload)
            except OSError:
                return
            time.sleep(AGAIN_SECONDS)


def listen(feed, address):
    host, port = address.rsplit(":", 1)
    listener = socket.create_server((host, int(port)))
    print("send.py: %s at %s:%d" % (feed.name, *listener.getsockname()[:2]), file=sys.stderr, flush=True)
    while True:
        link, _ = listener.accept()
        threading.Thread(target=serve, args=(feed, link), daemon=True).start()


def main():
    config, folder, *addresses = sys.argv[1:]
    with open(config, "rb") as file:
        os.environ["TZ"] = tomllib.load(file)["schedule"][0]["zone"]
    time.tzset()
    timetable = Timetable(Path(folder))
    threads = [threading.Thread(target=listen, args=(Feed(name, timetable), address), daemon=True)
               for name, address in zip(KINDS, addresses)]
    for thread in threads:
        thread.start()
    threads[0].join()


if len(sys.argv) != 6:
    sys.exit(__doc__)
main()
