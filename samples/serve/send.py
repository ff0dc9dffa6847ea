#!/usr/bin/env python3
"""Sends GTFS Realtime messages of a few scenes to a hub; a scene is made of the timetable and of the present time.

usage: send.py CONFIG message SCENE ..        writes one message to standard output
       send.py CONFIG spool FOLDER SCENE ..   writes it as the next file of a spool's folder
       send.py CONFIG stream ADDRESS          listens at ADDRESS (HOST:PORT, 0 for a port that is free), and says so on
                                              standard error. A hub that connects is sent the scene of the last line of
                                              standard input, at once and every ten seconds from then on

Scenes are about the trams at the stop Market, six an hour, of the first schedule of CONFIG. Several make one message,
in which the last that speaks of a tram counts:
  calm       nothing to say
  late       each sixth tram is four minutes late, each sixth one minute early, the others are on time
  skipped    each sixth tram doesn't call at Market          canceled   each sixth doesn't run
  added      one more tram runs soon                         alert      a lift is out of order
  unmatched  a trip that the timetable doesn't have
"""
import csv
import os
import socket
import struct
import sys
import threading
import time
import tomllib
from pathlib import Path

from wire import number, run  # the bytes of a number's field, and of a text's or a message's

SCENES = {"calm", "late", "skipped", "canceled", "added", "alert", "unmatched"}
STATION, ROUTE = "ST", "R7"
SKIPPED = 1  # of a stop time update
ADDED, CANCELED = 1, 3  # of a trip
MAINTENANCE, ACCESSIBILITY = 9, 11  # cause and effect of an alert
DAY = 24 * 60 * 60
AGAIN_SECONDS = 10


def rows(folder, name):
    with open(folder / name, encoding="utf-8", newline="") as file:
        return list(csv.DictReader(file))


def seconds(text):
    hours, minutes, rest = map(int, text.split(":"))
    return hours * 3600 + minutes * 60 + rest


class Timetable:
    """The trams of the first schedule of a configuration that leave from the platforms of the station."""

    def __init__(self, config):
        with open(config, "rb") as file:
            schedule = tomllib.load(file)["schedule"][0]
        os.environ["TZ"] = schedule["zone"]
        time.tzset()
        folder = Path(schedule["folder"])
        platforms = {row["stop_id"] for row in rows(folder, "stops.txt") if row["parent_station"] == STATION}
        trams = {row["trip_id"] for row in rows(folder, "trips.txt") if row["route_id"] == ROUTE}
        self.departures = sorted((seconds(row["departure_time"]), row["trip_id"], int(row["stop_sequence"]))
                                 for row in rows(folder, "stop_times.txt")
                                 if row["stop_id"] in platforms and row["trip_id"] in trams)

    def near(self, now):
        """The departures of the hour that a board shows, and of ten minutes before and after it: the
        number in the day, the trip, the service day and the stop_sequence of each."""
        for days in (-1, 0, 1):
            day = time.localtime(now + days * DAY)
            noon = time.mktime((day.tm_year, day.tm_mon, day.tm_mday, 12, 0, 0, 0, 0, -1))
            date = time.strftime("%Y%m%d", day)
            for count, (leaves, trip, place) in enumerate(self.departures):
                if now - 600 <= noon - DAY / 2 + leaves < now + 4200:
                    yield count, trip, date, place


def header(stamp):
    """A whole data set: what is not in it is no longer so."""
    return run(1, run(1, b"2.0") + number(2, 0) + number(3, stamp))


def trip(name, date, relation=0):
    return run(1, name.encode()) + run(3, date.encode()) + number(4, relation)


def update(trip_ref, *stops):
    return run(3, run(1, trip_ref) + b"".join(run(2, stop) for stop in stops))


def trams(timetable, scene, now):
    """What a scene says of trams: the payload of an entity by its id."""
    said = {}
    for count, name, date, place in timetable.near(now):
        if scene == "late":
            delay = (240, 0, 0, -60, 0, 30)[count % 6]
            said[name] = update(trip(name, date), number(1, place) + run(3, number(1, delay)))
        elif scene == "skipped" and count % 6 == 2:
            said[name] = update(trip(name, date), number(1, place) + number(5, SKIPPED))
        elif scene == "canceled" and count % 6 == 4:
            said[name] = update(trip(name, date, CANCELED))
    return said


def added(now):
    """One more tram, from Market A by way of Harbour to Hill, given by its times: at the next quarter of an hour that is
    five minutes away at least."""
    leaves = ((now + 300) // 900 + 1) * 900
    calls = [(b"S1", 0), (b"S3", 360), (b"S4", 840)]
    named = run(1, b"extra") + number(4, ADDED) + run(5, ROUTE.encode())
    return {"extra": update(named, *(run(3, number(2, leaves + after)) + run(4, stop) for stop, after in calls))}


def alert():
    heading = "The lift at Market is out of order. Without steps: take line 12 from Harbour.".encode()
    about = run(5, run(5, STATION.encode()))
    why = number(6, MAINTENANCE) + number(7, ACCESSIBILITY)
    return {"lift": run(5, about + why + run(10, run(1, run(1, heading))))}


def unmatched(now):
    return {"ghost": update(trip("ghost", time.strftime("%Y%m%d", time.localtime(now))))}


def message(timetable, scenes, stamp):
    unknown = set(scenes) - SCENES
    if unknown:
        sys.exit(f"send.py: no such scene: {' '.join(unknown)}")
    said = {}
    for scene in scenes:
        if scene == "added":
            said |= added(stamp)
        elif scene == "alert":
            said |= alert()
        elif scene == "unmatched":
            said |= unmatched(stamp)
        else:
            said |= trams(timetable, scene, stamp)
    return header(stamp) + b"".join(run(2, run(1, name.encode()) + payload) for name, payload in said.items())


class Sender:
    """Sends the last scene to the hub that is connected, with a stamp that rises from message to message."""

    def __init__(self, timetable):
        self.timetable, self.scenes, self.stamp = timetable, ["calm"], 0
        self.changed = threading.Condition()

    def show(self, scenes):
        with self.changed:
            self.scenes = scenes
            self.changed.notify()

    def serve(self, listener):
        while True:
            link, _ = listener.accept()
            try:
                with link, self.changed:
                    while True:
                        self.send(link)
                        self.changed.wait(AGAIN_SECONDS)
            except OSError:
                pass  # the hub is gone; the next one is waited for

    def send(self, link):
        self.stamp = max(int(time.time()), self.stamp + 1)
        payload = message(self.timetable, self.scenes, self.stamp)
        link.sendall(struct.pack(">I", len(payload)) + payload)


def stream(timetable, address):
    host, port = address.rsplit(":", 1)
    listener = socket.create_server((host, int(port)))
    print("send.py: listening on %s:%d" % listener.getsockname()[:2], file=sys.stderr, flush=True)
    sender = Sender(timetable)
    serving = threading.Thread(target=sender.serve, args=(listener,), daemon=True)
    serving.start()
    for line in sys.stdin:
        message(timetable, line.split(), 0)  # ends here at a scene that there isn't
        sender.show(line.split())
    serving.join()


def spool(timetable, folder, scenes):
    """Writes under a name that the hub doesn't read, and renames: so no file is read half written."""
    folder.mkdir(parents=True, exist_ok=True)
    count = 1 + len(list(folder.glob("??????.pb")))
    whole = folder / "next"
    whole.write_bytes(message(timetable, scenes, int(time.time())))
    whole.rename(folder / f"{count:06d}.pb")


def main():
    config, kind, *words = sys.argv[1:]
    timetable = Timetable(config)
    if kind == "stream":
        stream(timetable, words[0])
    elif kind == "spool":
        spool(timetable, Path(words[0]), words[1:])
    else:
        sys.stdout.buffer.write(message(timetable, words, int(time.time())))


if len(sys.argv) < 4:
    sys.exit(__doc__)
main()
