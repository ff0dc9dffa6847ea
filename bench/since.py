"""What it costs a running hub to say what changed in a combined feed, for since.sh.

usage: since.py PROGRAM

A hub with one reader runs under callgrind. It is sent a whole data set, and then messages of 20 changed entities, one
after another. Behind each of the first ones it is asked what changed, so that the reader keeps as many looks as it ever
does. Then callgrind begins to count: before, large blocks of the heap grow, and whether one is moved for that differs from
run to run by more than all requests cost. Behind each of the other messages a first run asks nothing, a second what
changed, a third for the whole feed. All else is the same in the three: so what the second and the third have more than the
first, divided by the messages, is a request.
"""
import http.client
import os
import queue
import re
import subprocess
import sys
import tempfile
import time

from running_hub import BENCH, FIRST, Hub, Sender, changes, entities_of, frames, header, late, made_trips
from messages import entities, stamp_and_kind  # of samples/serve, which running_hub adds to the path

PROGRAM = sys.argv[1]
SIZES = 3_000, 30_000
CHANGED = 20
# How many messages come before the counted ones, more than a reader keeps looks; and how many are counted.
KEPT, COUNTED = 70, 20
PLACES = range(1, 6)
# Seconds without work by which a message counts as taken in; the later ones are tried where that was too short. A hub
# closes a connection that is idle for ten.
PAUSES = 0.1, 0.5, 2.0
# What is asked for behind each counted message, by the number of messages before it.
ASKED = {
    "nothing": None,
    "changes": lambda before: f"/feed/city?since={before}",
    "whole": lambda before: "/feed/city",
}


class TooEarly(Exception):
    """A request was answered before the message in front of it was taken in."""


class Client:
    """A connection to a hub of which it is known how many messages it has."""

    def __init__(self, hub):
        self.link = http.client.HTTPConnection(hub.address, timeout=600)

    def ask(self, path, sequence):
        """The body of the answer, which is to be of that number of messages."""
        self.link.request("GET", path)
        answer = self.link.getresponse()
        body = answer.read()
        if int(answer.headers["X-Hub-Sequence"]) != sequence:
            raise TooEarly
        return body

    def close(self):
        self.link.close()


def data_set(trips):
    """A whole data set of an update of each of these trips, with delays that no change has."""
    pairs = [late(trip, 1000 + k * 37 % 600, PLACES) for k, trip in enumerate(trips)]
    return header(FIRST - 1, whole=True) + entities_of(pairs)


def settle(hub, seconds):
    """Waits for that long, and then until the hub has used no processor for as long."""
    before = None
    while before is None or hub.seconds() != before:
        time.sleep(seconds)
        before = hub.seconds()
        time.sleep(seconds)


def talk(hub, sent, trips, asked, pause):
    """Sends all messages with their requests, and gives the last body that was asked for behind a counted one."""
    messages = changes(KEPT + COUNTED, trips, CHANGED, places=PLACES)
    sent.put(frames([data_set(trips)]))
    settle(hub, 10 * pause)
    client, body = Client(hub), b""
    client.ask("/status", 1)
    for before, message in enumerate(messages, 1):
        if before == KEPT + 1:
            client.close()
            client = Client(hub)
            subprocess.run(["callgrind_control", "--instr=on", str(hub.process.pid)], check=True, capture_output=True)
        sent.put(frames([message]))
        settle(hub, pause)
        if before <= KEPT:
            client.ask(ASKED["changes"](before), before + 1)
        elif asked:
            body = client.ask(asked(before), before + 1)
    # By this each run has the two connections, the one without requests too, and the messages are seen to be there.
    client.ask("/board/city/NO", len(messages) + 1)
    client.close()
    settle(hub, pause)
    return body


def run_of(folder, trips, asked, pause):
    """The instructions of a hub of the timetable in a folder, and the last body that was asked for."""
    sent = queue.SimpleQueue()
    sender = Sender(iter(sent.get, None))
    with tempfile.TemporaryDirectory() as work:
        calls = os.path.join(work, "calls")
        words = ["valgrind", "--tool=callgrind", "--instr-atstart=no", f"--callgrind-out-file={calls}"]
        hub = Hub(PROGRAM, folder, 1, [sender], words)
        sender.begin.set()
        try:
            body = talk(hub, sent, trips, asked, pause)
        finally:
            hub.close()
            sent.put(None)
            sender.close()
        with open(calls, encoding="utf-8") as file:
            return int(re.search(r"^totals: (\d+)", file.read(), re.M).group(1)), body


def patient_run(folder, trips, asked):
    """The same, with as short a pause as will do. How long it is changes no count."""
    for pause in PAUSES:
        try:
            return run_of(folder, trips, asked, pause)
        except TooEarly:
            print(f"since.py: {pause} s are too short here", file=sys.stderr, flush=True)
    sys.exit("since.py: the hub is too slow here")


def measured(size):
    """The instructions of a request, and the bytes of its answer: for the changes, and for the whole feed."""
    trips = made_trips(size)
    with tempfile.TemporaryDirectory() as work:
        folder = os.path.join(work, "city")
        words = [os.path.join(BENCH, "make_timetable.py"), str(size), folder, str(len(PLACES))]
        subprocess.run([sys.executable, *words], check=True)
        runs = {kind: patient_run(folder, trips, asked) for kind, asked in ASKED.items()}
    see("changes", runs["changes"][1], False, CHANGED)
    see("whole", runs["whole"][1], True, size)
    without = runs["nothing"][0]
    return {kind: ((count - without) / COUNTED, len(body)) for kind, (count, body) in runs.items()}


def see(kind, body, is_whole, count):
    """Ends where the answer is another than was asked for."""
    if stamp_and_kind(body)[1] != is_whole or len(list(entities(body))) != count:
        sys.exit(f"since.py: the answer of the kind {kind} is no message of {count:,} entities")


def main():
    costs = {}
    for size in SIZES:
        costs[size] = measured(size)
        (some, some_bytes), (all_of_it, all_bytes) = costs[size]["changes"], costs[size]["whole"]
        print(f"{CHANGED} changed entities of {size:,}: {some:,.0f} instructions, {some_bytes:,} bytes; the whole feed"
              f" {all_of_it:,.0f} instructions, {all_bytes:,} bytes; {some / all_of_it:.4f} of its instructions", flush=True)
    small, large = (costs[size]["changes"][0] for size in SIZES)
    print(f"{CHANGED} changed entities of {SIZES[1]:,} next to as many of {SIZES[0]:,}:"
          f" {large / small:.2f} times the instructions")


main()
