#!/usr/bin/env python3
"""Computes a saved answer of a hub again, out of what record.py kept: which messages of each feed lie behind it, whether
`hub replay` answers the same bytes, and which message made each delay of a board.

usage: audit.py [--began SECONDS] [--script FILE] CONFIG RECORDS RESPONSE TARGET

CONFIG is the hub's configuration as it was then, with its timetables; RECORDS the folder of record.py; RESPONSE a file with
the answer and its head, as `curl -i` saves it; TARGET what was asked for, as '/board/city/ST?limit=3'. Where an answer
of /status to the same client was saved too, as RESPONSE.status, it tells how many messages of each feed are behind the
answer; else they are looked for around its moment. The hub is the one that connected last before that moment, or
before SECONDS (since 1970) where --began tells it. FILE is where the script stays by which it was computed.

HUB names the program, where it is not `hub` on the PATH. Paths in CONFIG are relative to the folder in which this is
started. Status 0: the bytes are the same; 1: they are not, or the messages aren't found.
"""
import argparse
import heapq
import json
import os
import subprocess
import sys
import tempfile
import time
import tomllib
from collections import Counter, namedtuple
from itertools import islice
from pathlib import Path
from urllib.parse import urlsplit

sys.path.append(str(Path(__file__).resolve().parents[1] / "serve"))
from messages import DELETED, TRIP_UPDATE, entities, every, last, stamp_and_kind, text
from records import arrivals, run_before
from wire import fields

APART_SECONDS = 3  # by which the recorder's clock and the hub's may differ, and a message be on its way
TRIP, UPDATE_TIMESTAMP = 1, 4  # of a TripUpdate
TRIP_ID, START_DATE = 1, 3  # of a TripDescriptor
GREATEST_STAMP = 253_402_300_799
MOST_TRIES = 200
HUB = os.environ.get("HUB", "hub")


Said = namedtuple("Said", "feed name trip date stamp words first latest")
Arrived = namedtuple("Arrived", "place time stamp")


class Answer:
    """A saved response: its number of messages, its moment, its body."""

    def __init__(self, path):
        self.bytes = Path(path).read_bytes()
        head, _, self.body = self.bytes.partition(b"\r\n\r\n")
        lines = [line.partition(": ") for line in head.decode("latin-1").split("\r\n")[1:]]
        named = {name.lower(): value for name, _, value in lines}
        if not {"x-hub-sequence", "x-hub-moment"} <= named.keys():
            sys.exit(f"audit.py: {path} has no head of a hub; curl -i saves it")
        self.number, self.moment = int(named["x-hub-sequence"]), int(named["x-hub-moment"])


class Audit:
    """The messages that were kept for a hub, and what `hub replay` says of them."""

    def __init__(self, words, answer):
        self.words, self.answer, self.verdicts = words, answer, {}
        with open(words.config, "rb") as file:
            self.feeds = [feed for feed in tomllib.load(file).get("feed", []) if feed.get("kind") == "stream"]
        self.names = [feed["name"] for feed in self.feeds]
        began = words.began or answer.moment + 1
        self.runs = {name: run_before(words.records, name, began) for name in self.names}

    def arrivals(self):
        until = self.answer.moment + 1 + APART_SECONDS
        return heapq.merge(*(arrivals(self.words.records, name, run, until) for name, run in self.runs.items() if run))

    def question(self):
        request = f"GET {self.words.target} HTTP/1.1\r\nHost: hub\r\n\r\n".encode()
        return b"Q %d %d\n%s\n" % (self.answer.moment, len(request), request)

    def replay(self, records):
        """What `hub replay` prints for the records of a script: of each message whether it is accepted, of each question
        the response."""
        kept = open(self.words.script, "w+b") if self.words.script else tempfile.TemporaryFile()
        with kept as script, tempfile.TemporaryFile() as said:
            script.writelines(records)
            script.write(b"E\n")
            script.seek(0)
            subprocess.run([HUB, "replay", self.words.config], stdin=script, stdout=said, check=True)
            said.seek(0)
            for line in said:
                words = line.split()
                yield said.read(int(words[1]) + 1)[:-1] if words[0] == b"connection" else words[0] == b"accepted"

    def in_order(self):
        """How many accepted messages of each feed lie behind the answer where the hub took them in the order in which
        they came, and the bytes that it answers then; nothing where they are too few. Notes which are accepted."""
        order = []

        def script():
            for it in self.arrivals():
                if it.time > self.answer.moment - APART_SECONDS:
                    yield self.question()
                    order.append(None)
                yield offer(it)
                order.append((it.feed, it.place, it.time))
            yield self.question()
            order.append(None)

        counts, found = Counter(), None
        for said, offered in zip(self.replay(script()), order):
            if offered:
                self.verdicts[offered[:2]] = offered[2], said
                counts[offered[0]] += said
            elif counts.total() == self.answer.number:
                found = found or (Counter(counts), said)
        return found

    def behind(self, counts):
        """The messages of a split: the first accepted ones of each feed."""
        left = Counter(counts)
        for it in self.arrivals():
            if left[it.feed] > 0 and self.verdicts[it.feed, it.place][1]:
                left[it.feed] -= 1
                yield it

    def computed(self, counts):
        """The response that a split gives."""
        def script():
            yield from map(offer, self.behind(counts))
            yield self.question()

        *_, response = self.replay(script())
        return response

    def ranges(self):
        """For each feed the least and the greatest number of its messages that may lie behind the answer: by the status
        that was saved, else by the times at which they came."""
        path = Path(self.words.response + ".status")
        if path.exists():
            status = Answer(path)
            rows = [line.split("\t") for line in status.body.decode().splitlines()[2:]]
            more = self.answer.number - status.number
            told = {name: int(accepted) for name, accepted, _, _ in rows if name in self.names}
            return {name: (max(0, min(n, n + more)), max(n, n + more)) for name, n in told.items()}
        sure, most = Counter(), Counter()
        for (feed, _), (came, accepted) in self.verdicts.items():
            sure[feed] += accepted and came < self.answer.moment - APART_SECONDS
            most[feed] += accepted
        return {name: (sure[name], most[name]) for name in self.names}

    def splits(self, ranges, total, chosen=()):
        """All ways in which the feeds' messages come to a total."""
        if len(chosen) == len(self.names):
            if total == 0:
                yield Counter(dict(zip(self.names, chosen)))
            return
        least, most = ranges[self.names[len(chosen)]]
        rest = [ranges[name] for name in self.names[len(chosen) + 1:]]
        for n in range(max(least, total - sum(high for _, high in rest)), min(most, total - sum(low for low, _ in rest)) + 1):
            yield from self.splits(ranges, total - n, (*chosen, n))

    def find(self):
        """The split whose response has the body of the answer, that response, and how many were tried."""
        first = self.in_order()
        ranges = self.ranges()
        tried = 0
        if first and all(ranges[name][0] <= first[0][name] <= ranges[name][1] for name in self.names):
            tried = 1
            if body_of(first[1]) == self.answer.body:
                return *first, tried
        for counts in islice(self.splits(ranges, self.answer.number), MOST_TRIES):
            if not first or counts != first[0]:
                tried += 1
                response = self.computed(counts)
                if body_of(response) == self.answer.body:
                    return counts, response, tried
        return None, b"", tried


def offer(arrival):
    return b"M %s %d\n%s\n" % (arrival.feed.encode(), len(arrival.payload), arrival.payload)


def body_of(response):
    return response.partition(b"\r\n\r\n")[2]


def said_of_trips(messages):
    """What the feeds hold of trips after some messages: for each entity with a trip update by which message it was said
    last, and since which it has said the same."""
    held = {}
    for it in messages:
        stamp, whole = stamp_and_kind(it.payload)
        before = held.get(it.feed, {})
        after = {} if whole else before
        this = Arrived(it.place, it.time, stamp)
        for name, entity in entities(it.payload):
            update, old = last(entity, TRIP_UPDATE), before.get(name)
            if update is None or last(entity, DELETED, 0):
                after.pop(name, None)
                continue
            trip = b"".join(every(update, TRIP))
            own = last(update, UPDATE_TIMESTAMP, 0)
            words = b"".join(said for field, _, said in fields(update) if field != UPDATE_TIMESTAMP)
            after[name] = Said(it.feed, name, text(trip, TRIP_ID), text(trip, START_DATE),
                               own if 1 <= own <= GREATEST_STAMP else stamp, words,
                               old.first if old and old.words == words else this, this)
        held[it.feed] = after
    return [said for feed in held.values() for said in feed.values()]


def rows_of(body):
    """The rows of a board, as text or as JSON: trip, date, state, delay and expected instant."""
    columns = ("trip", "date", "state", "delay", "expected")
    if body.startswith(b"{"):
        rows = json.loads(body).get("rows", [])
    else:
        lines = [line.split("\t") for line in body.decode().splitlines()[1:]]
        rows = [dict(zip(lines[0], line)) for line in lines[1:]]
    return [[row.get(name) for name in columns] for row in rows]


def clock(seconds):
    return time.strftime("%Y-%m-%dT%H:%M:%S", time.gmtime(seconds)) + ".%02dZ" % (seconds % 1 * 100)


def tell_rows(audit, counts):
    """Says which message made each delay: that of the update that counts (docs/FORMATS.md, "Boards"), by the trip_id."""
    schedule = urlsplit(audit.words.target).path.split("/")[2]
    ages = {feed["name"]: feed.get("max_age", 0) for feed in audit.feeds if feed["schedule"] == schedule}
    counting = [said for said in said_of_trips(audit.behind(counts)) if said.feed in ages
                and (not ages[said.feed] or said.stamp + ages[said.feed] >= audit.answer.moment)]
    for trip, date, state, delay, expected in rows_of(audit.answer.body):
        if state == "scheduled":
            continue
        about = [said for said in counting if said.trip == trip and said.date in ("", date or said.date)]
        words = f"{expected} {trip} {date or '-'} {state} {delay if delay is not None else '-'}"
        if not about:
            print(f"  {words}: by an update without its trip_id")
            continue
        said = max(about, key=lambda it: (it.stamp, -audit.names.index(it.feed), it.name))
        print(f"  {words}: feed {said.feed}, message {said.latest.place} that came {clock(said.latest.time)} with stamp "
              f"{said.latest.stamp}, entity {said.name.decode()}; the same since message {said.first.place} that came "
              f"{clock(said.first.time)}")


def words_of():
    parser = argparse.ArgumentParser(add_help=False)
    parser.error = lambda _: sys.exit(__doc__)
    parser.add_argument("--began", type=float)
    parser.add_argument("--script")
    for name in ("config", "records", "response", "target"):
        parser.add_argument(name)
    return parser.parse_args()


def main():
    words = words_of()
    answer = Answer(words.response)
    audit = Audit(words, answer)
    print(f"{words.response}: {answer.number} messages, moment {answer.moment}, {clock(answer.moment)}")
    counts, response, tried = audit.find()
    if counts is None:
        sys.exit(f"audit.py: of {tried} ways to take {answer.number} messages none gives these bytes")
    shares = ", ".join(f"{name} {counts[name]}" for name in audit.names)
    print(f"accepted before it: {shares}; found by try {tried}")
    print(f"the body of {len(answer.body)} bytes is the same" + (", and so is the head" if response == answer.bytes else ""))
    if words.target.startswith("/board/") and b" 200 " in response.partition(b"\r\n")[0]:
        tell_rows(audit, counts)


try:
    main()
except (OSError, ValueError, subprocess.CalledProcessError) as error:
    sys.exit(f"audit.py: {error}")
