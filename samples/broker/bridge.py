#!/usr/bin/env python3
"""Takes the messages of one GTFS Realtime feed from a topic of an MQTT broker, or from a stream, and hands them to any
number of hubs.

usage: bridge.py [--state FILE] ADDRESS mqtt WORD ..     WORDs are those of mosquitto_sub: -h HOST -t TOPIC -c -i NAME,
                                                         and what the broker asks for (-u, -P, --cafile)
       bridge.py [--state FILE] ADDRESS tcp HOST:PORT    a stream: of another bridge, or of whoever listens there

At ADDRESS (HOST:PORT, 0 for a free port) hubs find it: a feed of kind "stream" whose place is this address. What still
counts when it is ended by a signal is kept in FILE, and taken from there, and removed, when it starts again.

A hub that connects is sent what still counts: the last whole data set and the messages since then, each without the
entities that later ones have replaced, and from then on what comes. So it comes to hold what a hub holds that has
taken each message as it came. A hub that is slow isn't sent what was replaced while it was at work: the bridge keeps
what still counts once, whatever the number of hubs is, and nothing for each of them.

Broker, stream and hubs may come and go as they like. It runs until it is ended; what is wrong it says on standard error.
"""
import argparse
import bisect
import re
import signal
import socket
import struct
import subprocess
import sys
import threading
import time
from pathlib import Path

sys.path.append(str(Path(__file__).resolve().parents[1] / "serve"))
from messages import ENTITY, ID, last, stamp_and_kind
from wire import fields

LONGEST = 16_777_216  # bytes of a message: at a longer one a hub ends the stream
GREATEST_STAMP = 253_402_300_799
AGAIN_SECONDS = 1
SILENCE_SECONDS = 60  # after which a machine that doesn't answer is given up
AHEAD = 262_144  # bytes that the system keeps for a hub that is at work
HEXADECIMAL = re.compile("(?:[0-9a-f]{2})+\n")


class Message:
    """A message, and its entities by their ids."""

    def __init__(self, payload):
        self.stamp, self.whole = stamp_and_kind(payload)
        self.head, self.entities = b"", {}
        for field, value, said in fields(payload):
            if field != ENTITY:
                self.head += said
            elif name := last(value, ID, b""):
                self.entities[name] = said
            else:
                raise ValueError("an entity has no id")
        self.bytes = payload

    def without(self, name):
        """The message as it is once a later one says something else of that id."""
        del self.entities[name]
        self.bytes = b""

    def frame(self):
        self.bytes = self.bytes or self.head + b"".join(self.entities.values())
        return struct.pack(">I", len(self.bytes)) + self.bytes


class Log:
    """The messages that still count, by their numbers, and of each id the number of the message that says it."""

    def __init__(self):
        self.numbers, self.messages, self.holders = [], {}, {}
        self.count, self.stamp, self.refused = 0, 0, 0
        self.changed = threading.Condition()

    def offer(self, payload):
        """Takes a message in, or says why hubs would refuse it. That one isn't newer is said at the first of them, the
        tenth, the hundredth and so on: a broker may send some of them again."""
        try:
            if len(payload) > LONGEST:
                raise ValueError(f"it has more than {LONGEST} bytes")
            message = Message(payload)
            if not 1 <= message.stamp <= GREATEST_STAMP:
                raise ValueError(f"its stamp is {message.stamp}")
        except ValueError as error:
            return tell(f"a message is left out: {error}")
        if message.stamp > self.stamp:
            return self.take(message)
        self.refused += 1
        if str(self.refused).strip("0") == "1":
            tell(f"a message with stamp {message.stamp} is left out after one with {self.stamp}: {self.refused} so far")

    def take(self, message):
        with self.changed:
            if message.whole:
                self.numbers, self.messages, self.holders = [], {}, {}
            for name in message.entities:
                if name in self.holders:
                    self.messages[self.holders[name]].without(name)
                    self.forget(self.holders[name])
                self.holders[name] = self.count + 1
            if self.numbers:
                self.forget(self.numbers[-1])  # it counts no more where it only told the time
            self.count, self.stamp = self.count + 1, message.stamp
            self.numbers.append(self.count)
            self.messages[self.count] = message
            self.changed.notify_all()

    def forget(self, number):
        """Forgets a message of which nothing counts any more. That a whole data set begins anew counts always."""
        message = self.messages.get(number)
        if message and not message.whole and not message.entities:
            del self.messages[number]
            del self.numbers[bisect.bisect_left(self.numbers, number)]

    def after(self, number):
        """Waits for the first message behind that number; its own number, and what is sent of it."""
        with self.changed:
            self.changed.wait_for(lambda: self.numbers and self.numbers[-1] > number)
            following = self.numbers[bisect.bisect(self.numbers, number)]
            return following, self.messages[following].frame()


def watch(link):
    """Has a connection end once the other side's machine has vanished, of which nothing else would tell."""
    link.setsockopt(socket.SOL_SOCKET, socket.SO_KEEPALIVE, 1)
    link.setsockopt(socket.IPPROTO_TCP, socket.TCP_KEEPIDLE, SILENCE_SECONDS // 2)
    link.setsockopt(socket.IPPROTO_TCP, socket.TCP_KEEPINTVL, SILENCE_SECONDS // 6)
    link.setsockopt(socket.IPPROTO_TCP, socket.TCP_KEEPCNT, 3)


def give(log, link):
    """Hands on what counts, until the hub is gone."""
    watch(link)
    link.setsockopt(socket.SOL_SOCKET, socket.SO_SNDBUF, AHEAD)
    number = 0
    with link:
        while True:
            number, frame = log.after(number)
            try:
                link.sendall(frame)
            except OSError:
                return


def tell(trouble):
    print(f"bridge.py: {trouble}", file=sys.stderr, flush=True)


def framed(file):
    """The messages of a stream, each after four bytes with its length."""
    while len(head := file.read(4)) == 4:
        length = struct.unpack(">I", head)[0]
        if length > LONGEST or len(payload := file.read(length)) < length:
            return
        yield payload


class Source:
    """Where messages come from. `end` ends what it waits for; what has come by then is still handed on."""

    def __init__(self, kind, words):
        self.open, self.words = {"mqtt": self.topic, "tcp": self.stream}[kind], words
        self.ended, self.interrupt = threading.Event(), lambda: None

    def end(self, *_):
        self.ended.set()
        self.interrupt()

    def topic(self):
        """The messages of a topic, and what goes wrong. mosquitto_sub writes a message as a line of hexadecimal digits."""
        command = ["mosquitto_sub", "-q", "1", "-F", "%x", *self.words]
        with subprocess.Popen(command, stdout=subprocess.PIPE, stderr=subprocess.STDOUT, text=True) as program:
            self.interrupt = program.terminate
            for line in program.stdout:
                yield bytes.fromhex(line) if HEXADECIMAL.fullmatch(line) else line.strip()

    def stream(self):
        host, port = self.words[0].rsplit(":", 1)
        with socket.create_connection((host, int(port))) as link, link.makefile("rb") as file:
            watch(link)
            self.interrupt = lambda: link.shutdown(socket.SHUT_RDWR)
            yield from framed(file)

    def messages(self):
        """What comes, again and again, until it is ended. What goes wrong is said once, until messages come again."""
        troubles = set()
        while not self.ended.is_set():
            try:
                for said in self.open():
                    if isinstance(said, bytes):
                        troubles.clear()
                        yield said
                    else:
                        self.tell_once(troubles, said)
                self.tell_once(troubles, "the source has ended; it is asked again each second")
            except OSError as error:
                self.tell_once(troubles, f"the source: {error}")
            self.ended.wait(AGAIN_SECONDS)

    def tell_once(self, troubles, said):
        if said not in troubles and not self.ended.is_set():
            troubles.add(said)
            tell(said)


def accept(log, listener):
    while True:
        link, _ = listener.accept()
        threading.Thread(target=give, args=(log, link), daemon=True).start()


def main():
    parser = argparse.ArgumentParser(add_help=False)
    parser.error = lambda _: sys.exit(__doc__)
    parser.add_argument("--state", type=Path)
    parser.add_argument("address")
    parser.add_argument("kind", choices=("mqtt", "tcp"))
    parser.add_argument("words", nargs=argparse.REMAINDER)
    words = parser.parse_args()
    log, source = Log(), Source(words.kind, words.words)
    if words.state and words.state.exists():
        with open(words.state, "rb") as file:
            for payload in framed(file):
                log.offer(payload)
        words.state.unlink()
    host, port = words.address.rsplit(":", 1)
    listener = socket.create_server((host, int(port)), backlog=128)
    tell("listening on %s:%d" % listener.getsockname()[:2])
    for number in (signal.SIGTERM, signal.SIGINT):
        signal.signal(number, source.end)
    threading.Thread(target=accept, args=(log, listener), daemon=True).start()
    for payload in source.messages():
        log.offer(payload)
    if words.state:
        words.state.write_bytes(b"".join(message.frame() for message in log.messages.values()))


main()
