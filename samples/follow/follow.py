#!/usr/bin/env python3
"""Keeps the combined feed of a schedule by what changes in it, and compares what it keeps with the whole feed.

usage: follow.py [--pause SECONDS] [--compare SECONDS] [--seconds SECONDS] ADDRESS SCHEDULE
       follow.py --check    tries its own parts, without a hub

It asks the hub at ADDRESS (HOST:PORT) on one connection: for the whole feed first, and each --pause seconds (0.3) for what
changed since its last answer. A whole data set replaces all that is kept; a difference is applied. Where the hub has
closed the connection, as it does after a thousand requests, a new one begins with the whole feed again.

Each --compare seconds (60), and at the end, it asks for the whole feed too, compares that with what it keeps, entity by
entity and byte for byte, and prints a line. It ends after --seconds (never) or by Ctrl-C. Status 0: something was
compared and nothing differed; 1: an entity differed, or nothing could be compared; 2: the hub has no such schedule.
"""
import argparse
import http.client
import sys
import time
from collections import Counter, namedtuple
from pathlib import Path
from urllib.parse import quote

sys.path.append(str(Path(__file__).resolve().parents[1] / "serve"))
from messages import DELETED, entities, last, stamp_and_kind
from wire import number, run

MOST_STEPS = 40  # by which the whole feed and what is kept are brought to one number
MOST_TRIES = 3  # of a comparison
SHOWN = 5  # ids of entities that differ

Answer = namedtuple("Answer", "link sequence body")


class Copy:
    """A combined feed as it was answered: the bytes of each entity by its id, the number of messages behind it, and the
    connection on which that number counts."""

    def __init__(self):
        self.link, self.sequence, self.entities = None, None, {}

    def take(self, answer):
        """Takes an answer, and tells whether it was a difference."""
        is_whole = stamp_and_kind(answer.body)[1]
        if is_whole:
            self.entities = {}
        for name, entity in entities(answer.body):
            if not is_whole and last(entity, DELETED, 0):
                self.entities.pop(name, None)
            else:
                self.entities[name] = entity
        self.link, self.sequence = answer.link, answer.sequence
        return not is_whole


def differing(some, others):
    """The ids of the entities that are not the same bytes in both, or in one alone."""
    return sorted(name for name in some.keys() | others.keys() if some.get(name) != others.get(name))


class Hub:
    """A connection to a hub, and a new one where that is closed; `link` is the one that is open, or None."""

    def __init__(self, address, schedule):
        self.address, self.path, self.link = address, f"/feed/{quote(schedule, safe='')}", None

    def ask(self, since):
        """The whole feed, or what changed in it since that number."""
        if self.link is None:
            self.link = http.client.HTTPConnection(self.address, timeout=60)
        link = self.link
        link.request("GET", self.path if since is None else f"{self.path}?since={since}")
        answer = link.getresponse()
        body = answer.read()
        if answer.status != 200:
            print(f"follow.py: the hub answers {answer.status} for {self.path}", file=sys.stderr)
            sys.exit(2)
        if answer.will_close:
            self.drop()
        return Answer(link, int(answer.headers["X-Hub-Sequence"]), body)

    def drop(self):
        if self.link is not None:
            self.link.close()
        self.link = None


class Follower:
    """Keeps the feed, and counts what it took."""

    def __init__(self, hub):
        self.hub, self.kept, self.count = hub, Copy(), Counter()

    def update(self, copy):
        """Brings a copy to what the hub says now, and tells whether that was by a difference. A number counts on its own
        connection: another one may be to a hub that was started again, and counts anew."""
        since = copy.sequence if copy.link is self.hub.link else None
        answer = self.hub.ask(since)
        is_difference = copy.take(answer)
        kind = "difference" if is_difference else "whole"
        self.count.update({kind: 1, f"{kind} bytes": len(answer.body)})
        return is_difference

    def compare(self):
        """Asks for the whole feed, and tells the ids of what differs from what is kept; or None where it couldn't. The two
        are of one number then: where a message has come in between, the one that is behind goes on by a difference."""
        self.update(self.kept)
        whole = Copy()
        self.update(whole)
        for _ in range(MOST_STEPS):
            if self.kept.link is not whole.link:
                return None
            if self.kept.sequence == whole.sequence:
                return differing(self.kept.entities, whole.entities)
            behind = min(self.kept, whole, key=lambda copy: copy.sequence)
            if not self.update(behind):
                return None
        return None

    def see(self):
        """Compares, counts what was found, and prints the line."""
        for _ in range(MOST_TRIES):
            names = self.compare()
            if names is not None:
                self.count.update({"compared": 1, "differ": len(names)})
                self.tell(names)
                break
        print(self.line(), flush=True)

    def tell(self, names):
        """Says which entities differ, and begins again with the whole feed where any does."""
        if names:
            shown = b", ".join(names[:SHOWN]).decode(errors="replace")
            print(f"follow.py: at {self.kept.sequence} {len(names)} entities differ: {shown}", file=sys.stderr, flush=True)
            self.kept = Copy()

    def line(self):
        count = self.count
        return (f"{count['difference'] + count['whole']:,} answers: {count['difference']:,} differences with"
                f" {count['difference bytes']:,} bytes, {count['whole']:,} full feeds with {count['whole bytes']:,} bytes;"
                f" {len(self.kept.entities):,} entities; compared {count['compared']:,} times, {count['differ']:,} differ")

    def is_good(self):
        return self.count["compared"] > 0 and self.count["differ"] == 0


def tried(hub, step):
    """Does a step with the hub. Where it is away, that is said, and the next step is made a second later."""
    try:
        step()
    except (OSError, http.client.HTTPException) as error:
        print(f"follow.py: {error or type(error).__name__}", file=sys.stderr, flush=True)
        hub.drop()
        time.sleep(1)


def follow(words):
    """Follows the feed until the time is over, and tells whether all was as it should be."""
    hub = Hub(words.address, words.schedule)
    follower = Follower(hub)
    began = time.monotonic()
    due = began + words.compare
    try:
        while time.monotonic() - began < words.seconds:
            tried(hub, lambda: follower.update(follower.kept))
            if time.monotonic() >= due:
                tried(hub, follower.see)
                due += words.compare
            time.sleep(words.pause)
    except KeyboardInterrupt:
        pass
    tried(hub, follower.see)
    return follower.is_good()


def made(kind, said):
    """A message with these entities: a whole data set (0) or a difference (1)."""
    header = run(1, run(1, b"2.0") + number(2, kind) + number(3, 7))
    return header + b"".join(run(2, run(1, name) + payload) for name, payload in said.items())


class MadeHub:
    """A hub for --check: the states that it goes through, and how many it goes on before each answer."""

    def __init__(self, states, steps):
        self.states, self.steps, self.at, self.link = states, iter(steps), 0, object()

    def ask(self, since):
        self.at += next(self.steps, 0)
        now = self.states[self.at]
        if since is None:
            return Answer(self.link, self.at, made(0, now))
        was = self.states[since]
        changes = {name: now[name] for name in now if was.get(name) != now[name]}
        changes |= {name: number(2, 1) for name in was if name not in now}
        return Answer(self.link, self.at, made(1, changes))


def check():
    """Tries what a copy takes, and comparisons with a hub that goes on meanwhile."""
    first, second = run(3, b"one"), run(3, b"two")
    copy = Copy()
    assert not copy.take(Answer(None, 4, made(0, {b"a": first, b"b": first, b"c": number(2, 0)})))
    assert copy.take(Answer(None, 5, made(1, {b"a": second, b"b": number(2, 1), b"d": first, b"e": number(2, 1)})))
    assert copy.entities == {name: run(1, name) + payload for name, payload in
                             ((b"a", second), (b"c", number(2, 0)), (b"d", first))}
    assert copy.sequence == 5
    assert copy.take(Answer(None, 6, made(1, {}))) and len(copy.entities) == 3
    assert not copy.take(Answer(None, 6, run(1, run(1, b"2.0")))) and not copy.entities  # absent: FULL_DATASET
    assert differing({b"a": b"1", b"b": b"2"}, {b"b": b"3", b"c": b"4"}) == [b"a", b"b", b"c"]
    states = [{b"%d" % k: run(3, b"%d" % (at // k)) for k in range(1, 40) if (at + k) % 5} for at in range(200)]
    for steps in ([], [1], [0, 1, 1], [3, 0, 0], [2, 1, 4, 1, 1], [1] * 20):
        assert Follower(MadeHub(states, steps)).compare() == [], steps
    assert Follower(MadeHub(states, [1] * 100)).compare() is None  # each answer is of another number
    wrong = Follower(MadeHub(states, []))
    wrong.update(wrong.kept)
    wrong.kept.entities[b"4"] += b"x"
    assert wrong.compare() == [b"4"]
    print("follow.py: all is as it should be")


def main():
    if sys.argv[1:] == ["--check"]:
        check()
        return
    usage = __doc__.split("\n\n")[1].split("\n")[0].removeprefix("usage: ")
    parser = argparse.ArgumentParser(usage=usage, allow_abbrev=False)
    parser.add_argument("--pause", type=float, default=0.3)
    parser.add_argument("--compare", type=float, default=60.0)
    parser.add_argument("--seconds", type=float, default=float("inf"))
    parser.add_argument("address")
    parser.add_argument("schedule")
    sys.exit(0 if follow(parser.parse_args()) else 1)


main()
