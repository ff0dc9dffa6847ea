#!/usr/bin/env python3
"""A producer that publishes to a broker, and readers of a bridge, for broker.sh.

usage: broker.py publish HOST:PORT TOPIC RATE COUNT STAMP SCRIPT
           publishes COUNT messages, RATE a second, on the trips of the example's city. Each changes twenty trips, or
           takes back what it said of them; the first and each two thousandth is a whole data set, which the broker
           retains. STAMP is that of the first; they rise by one. SCRIPT is a file to which each is added as a record
           of `hub replay`
       broker.py readers ADDRESS COUNT STAMP
           COUNT readers of a bridge, until each has a message with that stamp
"""
import select
import socket
import struct
import sys
import threading
import time
from pathlib import Path

sys.path.append(str(Path(__file__).resolve().parents[1] / "serve"))
from wire import number, run, varint

CITY = Path("samples/serve/city")
CONNECT, PUBLISH = 0x10, 0x30  # control packets and their flags (MQTT 3.1.1, sections 2.2 and 3.3)
RETAIN, QUALITY_1, AGAIN = 1, 2, 8
WAITING = 1000  # messages that a broker hasn't acknowledged


def text(word):
    return struct.pack(">H", len(word)) + word.encode()


def packet(first, body):
    return bytes([first]) + varint(len(body)) + body


class Publisher:
    """Publishes with quality 1: each message is kept until the broker says that it has it, and sent once more to a broker
    that was away (MQTT 3.1.1, section 4.4)."""

    def __init__(self, address):
        host, port = address.rsplit(":", 1)
        self.address = host, int(port)
        self.waiting, self.count = {}, 0
        self.connect()

    def connect(self):
        while not self.connects():
            time.sleep(0.1)

    def connects(self):
        """Whether the broker takes a connection, and what it hasn't acknowledged."""
        try:
            self.link, self.heard = socket.create_connection(self.address, timeout=30), b""
            self.link.setsockopt(socket.IPPROTO_TCP, socket.TCP_NODELAY, 1)
            self.link.sendall(packet(CONNECT, text("MQTT") + bytes([4, 2]) + struct.pack(">H", 0) + text("producer")))
            if self.link.recv(4) != bytes([0x20, 2, 0, 0]):
                return False
            for name, (flags, body) in list(self.waiting.items()):
                if name in self.waiting:
                    self.link.sendall(packet(PUBLISH | flags | AGAIN, body))
                    self.take_answers(0)
            return True
        except OSError:
            return False

    def take_answers(self, seconds):
        """Takes the acknowledgements that come within that time: each has four bytes, of which two name the message."""
        if select.select([self.link], [], [], seconds)[0]:
            came = self.link.recv(65536)
            if not came:
                raise OSError("the broker is gone")
            self.heard += came
            while len(self.heard) >= 4:
                self.waiting.pop(struct.unpack(">H", self.heard[2:4])[0], None)
                self.heard = self.heard[4:]

    def hear(self, seconds):
        try:
            self.take_answers(seconds)
        except OSError:
            self.connect()

    def publish(self, topic, payload, retain):
        while len(self.waiting) >= WAITING:
            self.hear(1)
        self.count += 1
        name = self.count % 65535 + 1
        flags = QUALITY_1 | (RETAIN if retain else 0)
        body = text(topic) + struct.pack(">H", name) + payload
        self.waiting[name] = flags, body
        try:
            self.link.sendall(packet(PUBLISH | flags, body))
        except OSError:
            self.connect()
        self.hear(0)


def late(trip, date, delay):
    told = run(1, run(1, trip) + run(3, date)) + run(2, number(1, 1) + run(3, number(1, delay)))
    return run(2, run(1, trip) + run(3, told))


def gone(trip):
    return run(2, run(1, trip) + number(2, 1))


def message(trips, count, stamp):
    """The message of that count: a whole data set of all trips, or twenty changes, of which each seventh takes a trip's
    delay back."""
    date = time.strftime("%Y%m%d").encode()
    whole = count % 2000 == 0
    header = run(1, run(1, b"2.0") + number(2, 0 if whole else 1) + number(3, stamp))
    if whole:
        return header + b"".join(late(trip, date, 60 + place % 300) for place, trip in enumerate(trips))
    chosen = [trips[(count * 7919 + place * 97) % len(trips)] for place in range(20)]
    return header + b"".join(gone(trip) if place % 7 == 6 else late(trip, date, (count * 37 + place * 11) % 600)
                             for place, trip in enumerate(chosen))


def publish(address, topic, rate, count, stamp, script):
    rows = (CITY / "trips.txt").read_text(encoding="utf-8").splitlines()[1:]
    trips = [row.split(",")[2].encode() for row in rows]
    publisher, began = Publisher(address), time.monotonic()
    with open(script, "ab") as records:
        for place in range(int(count)):
            payload = message(trips, place, int(stamp) + place)
            records.write(b"M trams %d\n%s\n" % (len(payload), payload))
            publisher.publish(topic, payload, place % 2000 == 0)
            time.sleep(max(0, began + place / int(rate) - time.monotonic()))
    while publisher.waiting:
        publisher.hear(1)
    took = time.monotonic() - began
    print(f"{count} messages in {took:.0f} s, {int(count) / took:.0f} a second")


def read(address, wanted, sizes):
    host, port = address.rsplit(":", 1)
    with socket.create_connection((host, int(port))) as link:
        size, kept = 0, b""
        while wanted not in kept:
            part = link.recv(1 << 20)
            if not part:
                return
            size, kept = size + len(part), kept[-len(wanted):] + part
    sizes.append(size)


def readers(address, count, stamp):
    began, sizes = time.monotonic(), []
    threads = [threading.Thread(target=read, args=(address, number(3, int(stamp)), sizes)) for _ in range(int(count))]
    for thread in threads:
        thread.start()
    for thread in threads:
        thread.join()
    took = time.monotonic() - began
    least, most = min(sizes) / 1e6, max(sizes) / 1e6
    print(f"{len(sizes)} readers have the last message after {took:.0f} s, and took {least:.1f} to {most:.1f} MB each")


if __name__ == "__main__":
    what, *words = sys.argv[1:] or [""]
    if what not in ("publish", "readers"):
        sys.exit(__doc__)
    {"publish": publish, "readers": readers}[what](*words)
