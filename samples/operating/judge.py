#!/usr/bin/env python3
"""Offers a message to `hub replay` and tells what it does; judge.sh says how. Run by that.

usage: judge.py CONFIG FEED MESSAGE [EARLIER ..]
"""
import csv
import io
import os
import subprocess
import sys
import time
import tomllib
from pathlib import Path

sys.path.append(str(Path(__file__).resolve().parents[1] / "serve"))
from messages import ALERT, TRIP_UPDATE, entities, every, last, stamp_and_kind, text

# Fields of the messages within an entity, by their numbers in gtfs-realtime.proto.
TRIP, STOP_TIME_UPDATE = 1, 2
STOP_TIME_STOP, STOP_TIME_PROPERTIES, ASSIGNED_STOP = 4, 6, 1
TRIP_ID, ROUTE_ID = 1, 5
INFORMED_ENTITY, SELECTOR_ROUTE, SELECTOR_TRIP, SELECTOR_STOP = 5, 2, 4, 5
DAY, MOST_ROWS, MOST_STOPS = 86400, 1000, 20
GREATEST_STAMP = 253_402_300_799
FAULTS = {"cut": "the bytes end within a field", "varint": "a number has more than ten bytes", "tag": "a tag names no field",
          "group": "a group ends that is not open, or is too deep", "missing": "a required field is not there",
          "text": "a text is not UTF-8"}
REASONS = {"notrip": "the timetable has no such trip", "noday": "the day is outside of the window",
           "notactive": "the trip doesn't run on that day", "several": "two or more trips begin so",
           "relation": "boards don't show such a trip", "text": "start_date or start_time is none"}


def give_up(why):
    print(f"judge.sh: {why}", file=sys.stderr)
    sys.exit(2)


def rows(folder, name):
    with open(Path(folder) / name, encoding="utf-8-sig", newline="") as file:
        return list(csv.DictReader(file, skipinitialspace=True))


def named_by(payload):
    """The trips, routes and stops that a message speaks of; as far as its bytes can be read."""
    trips, routes, stops = set(), set(), set()
    try:
        for _, entity in entities(payload):
            update, alert = (b"".join(every(entity, field)) for field in (TRIP_UPDATE, ALERT))
            selectors = every(alert, INFORMED_ENTITY)
            for trip in every(update, TRIP) + [trip for it in selectors for trip in every(it, SELECTOR_TRIP)]:
                (trips if text(trip, TRIP_ID) else routes).add(text(trip, TRIP_ID) or text(trip, ROUTE_ID))
            for place in every(update, STOP_TIME_UPDATE):
                stops |= {text(place, STOP_TIME_STOP), text(last(place, STOP_TIME_PROPERTIES, b""), ASSIGNED_STOP)}
            routes |= {text(it, SELECTOR_ROUTE) for it in selectors}
            stops |= {text(it, SELECTOR_STOP) for it in selectors}
    except ValueError:
        pass
    return trips, routes, stops


def touched(folder, payloads):
    """The stops whose boards the messages may change: for a platform its station, in the order of stops.txt."""
    trips, routes, stops = (set().union(*sets) for sets in zip(*map(named_by, payloads)))
    trips |= {row["trip_id"] for row in rows(folder, "trips.txt") if row["route_id"] in routes}
    stops |= {row["stop_id"] for row in rows(folder, "stop_times.txt") if row["trip_id"] in trips}
    known = rows(folder, "stops.txt")
    return list(dict.fromkeys(row.get("parent_station") or row["stop_id"] for row in known if row["stop_id"] in stops))


def escaped(word):
    """A word of a script: RFC 3986, section 2.1."""
    return "".join(chr(byte) if 33 <= byte < 127 and byte != 37 else f"%{byte:02X}" for byte in word.encode())


def answers(config, script):
    """What `hub replay` prints: for each record its line, and the text that follows it."""
    program = os.environ["HUB"]
    done = subprocess.run([program, "replay", config], input=script, stdout=subprocess.PIPE, check=False)
    if done.returncode != 0:
        give_up(f"{program} ended with status {done.returncode}: {done.stdout.decode(errors='replace')}")
    out = io.BytesIO(done.stdout)
    for line in out:
        words = line.decode().split()
        sized = words[0] in ("board", "alerts", "unmatched") and words[1] != "none"
        yield words, out.read(int(words[1]) + 1)[:-1].decode() if sized else ""


def tell_refusal(words):
    print(" ".join(words))
    if words[1] == "malformed":
        entity, what, message, field = words[2:]
        where = f"entity {entity}" if entity != "0" else "the header, or outside of the entities"
        print(f"  {where}: {FAULTS[what]}; in field {field} of {message}")
    elif words[1] == "stale":
        print(f"  its stamp {words[3]} is not above {words[2]}, that of the last accepted message of its feed")
    elif words[1] == "stamp":
        print("  its header has no timestamp, or none that is a time")


def tell_unmatched(feed, listed):
    """What of the feed is on no board."""
    rows_of_feed = [line.split("\t") for line in listed.splitlines()[1:] if line.startswith(feed + "\t")]
    print(f"unmatched: {len(rows_of_feed)}")
    for _, name, kind, reason in rows_of_feed:
        print(f"  {kind} of entity {name}: {reason}: {REASONS[reason]}")


def tell_changes(before, after):
    """The lines by which a board, or a list of alerts, differs."""
    old, new = before.splitlines(), after.splitlines()
    for line in old:
        if line not in new:
            print(f"  - {line}")
    for line in new:
        if line not in old:
            print(f"  + {line}")


def tell_stops(stops, shown, before, after):
    """How the boards and the alerts of the stops change: of each stop a board and a list of alerts come in turn."""
    print(f"stops that it touches: {len(stops)}" + (f", of which {len(shown)} are shown" if len(stops) > len(shown) else ""))
    for place, stop in enumerate(shown):
        board, alerts = (2 * place, 2 * place + 1)
        changed = before[board] != after[board] or before[alerts] != after[alerts]
        title = after[board].partition("\n")[0] or f"stop\t{stop}"
        print(title + ("" if changed else "\tnothing changes"))
        tell_changes(before[board], after[board])
        tell_changes(before[alerts], after[alerts])


def script_of(feed, payloads, stops, moment):
    """Offers all but the last, asks, offers the last, and asks again."""
    asked = f"U {feed['schedule']}\n"
    for stop in stops:
        about = f"{feed['schedule']} {escaped(stop)} {moment} {DAY} {MOST_ROWS}"
        asked += f"B {about} text\nA {about}\n"
    offers = [b"M %s %d\n%s\n" % (feed["name"].encode(), len(payload), payload) for payload in payloads]
    return b"".join(offers[:-1]) + asked.encode() + offers[-1] + asked.encode() + b"E\n"


def feed_of(config, name):
    """A feed of a configuration, and the folder of its timetable."""
    try:
        with open(config, "rb") as file:
            parsed = tomllib.load(file)
        feed = next(it for it in parsed["feed"] if it["name"] == name)
        return feed, next(it["folder"] for it in parsed["schedule"] if it["name"] == feed["schedule"])
    except (OSError, ValueError) as error:
        give_up(f"{config}: {error}")
    except (KeyError, StopIteration):
        give_up(f"{config} has no feed {name} with a schedule")


def stamp_of(payload):
    """The stamp of a message, and what kind of message it is; 0 where it has none, or can't be read."""
    try:
        stamp, whole = stamp_and_kind(payload)
        return stamp, "whole data set" if whole else "differential message"
    except ValueError:
        return 0, ""


def main():
    config, name, message, *earlier = sys.argv[1:]
    feed, folder = feed_of(config, name)
    payloads = [Path(path).read_bytes() for path in [*earlier, message]]
    stops = touched(folder, payloads)
    shown = stops[:MOST_STOPS]
    stamp, kind = stamp_of(payloads[-1])
    moment = stamp if 1 <= stamp <= GREATEST_STAMP else int(time.time())
    said = list(answers(config, script_of(feed, payloads, shown, moment)))
    for path, (words, _) in zip(earlier, said):
        print(f"{path}: {' '.join(words)}")
    asked = 1 + 2 * len(shown)
    before, (verdict, _), after = said[len(earlier):-asked - 1], said[-asked - 1], said[-asked:]
    if verdict[0] != "accepted":
        tell_refusal(verdict)
        return 1
    print(f"accepted: a {kind} with stamp {stamp}")
    tell_unmatched(name, after[0][1])
    tell_stops(stops, shown, [text for _, text in before[1:]], [text for _, text in after[1:]])
    return 0


sys.exit(main())
