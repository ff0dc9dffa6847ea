#!/usr/bin/env python3
"""What a hub does where requests for memory are refused, for no_memory.sh. Status 0 exactly where all was as it should
be.

usage: no_memory.py rows PROGRAM LIBRARY FOLDER    worked inputs, each time with another request refused, alone and
                                                   with all after it
       no_memory.py start PROGRAM LIBRARY FOLDER   a server that ends since it can't listen, with each request refused
       no_memory.py open PROGRAM LIBRARY FOLDER    a server up to where it waits for clients, with each request refused,
                                                   alone and with all after it
       no_memory.py serve PROGRAM LIBRARY FOLDER   a server under load, with one request in a thousand refused

LIBRARY is no_memory.c as a shared library; FOLDER is for files of its own.
"""
import datetime
import mmap
import os
import re
import select
import socket
import struct
import subprocess
import sys
import threading
import time
from collections import Counter
from concurrent.futures import ThreadPoolExecutor
from pathlib import Path

TOP = Path(__file__).resolve().parent.parent.parent
sys.path.insert(0, str(TOP / "samples/serve"))
from wire import number, run

OUT_OF_MEMORY = 6
SECONDS = 60  # within which each run has to end


class Orders:
    """What a program that is run with the library is to be refused, and how much it was."""

    FIELDS = ("asked", "refused", "first", "onward", "every")

    def __init__(self, program, library, path):
        path.write_bytes(bytes(8 * len(self.FIELDS)))
        with open(path, "r+b") as file:
            self.numbers = mmap.mmap(file.fileno(), 0)
        self.program = program
        self.environment = os.environ | {"LD_PRELOAD": library, "NO_MEMORY": str(path)}

    def __getitem__(self, field):
        return struct.unpack_from("=Q", self.numbers, 8 * self.FIELDS.index(field))[0]

    def __setitem__(self, field, value):
        struct.pack_into("=Q", self.numbers, 8 * self.FIELDS.index(field), value)

    def begin(self, first=0, onward=0):
        """Nothing is asked yet, and the request of that number is to be refused, alone or with all after it."""
        for field, value in zip(self.FIELDS, (0, 0, first, onward, 0)):
            self[field] = value

    def run(self, words, script, first=0, onward=0):
        """The status and the output of the program, of whose requests the one of that number is refused; None for the
        status where it didn't end."""
        self.begin(first, onward)
        try:
            ran = subprocess.run([self.program, *words], input=script, stdout=subprocess.PIPE,
                                 stderr=subprocess.DEVNULL, env=self.environment, cwd=TOP, timeout=SECONDS)
        except subprocess.TimeoutExpired:
            return None, b""
        return ran.returncode, ran.stdout


# A message of stamp 5 without entities, and one that says that the lift at the harbour is out of order.
FIVE = run(1, run(1, b"2.0") + number(2, 0) + number(3, 5))
LIFT = FIVE + run(2, run(1, b"w") + run(5, run(1, number(1, 1743314000) + number(2, 1743315000)) + run(5, run(5, b"S3"))
                                         + run(10, run(1, run(1, b"Lift out")))))
SIX = run(1, run(1, b"2.0") + number(2, 0) + number(3, 6))
# Messages that are refused, each for another cause.
FAULTS = (b"", b"\x0a\x00", b"\x0a\x03\x0a\x01\xff", b"\x0a\x05\x0a\x032.0", FIVE + b"\x0c", FIVE + b"\x4b",
          FIVE + b"\x00", FIVE + b"\xff" * 10, FIVE + run(2, number(3, 1)))
ASK = b"GET /board/city/S3?limit=1 HTTP/1.1\r\nHost: h\r\n\r\n"


def offer(feed, payload):
    return b"M %s %d\n%s\n" % (feed, len(payload), payload)


def connection(payload):
    return b"Q 1743314000 %d\n%s\n" % (len(payload), payload)


def marked_city(folder):
    """The configuration of a copy of the small city whose files begin with a byte order mark."""
    (folder / "city").mkdir()
    for file in (TOP / "samples/city").glob("*.txt"):
        (folder / "city" / file.name).write_bytes(b"\xef\xbb\xbf" + file.read_bytes())
    conf = folder / "city.toml"
    conf.write_text((TOP / "samples/city.toml").read_text().replace("samples/city", str(folder / "city")))
    return str(conf)


def inputs(folder):
    """Each input with its name, its words and its script."""
    deep = offer(b"a", FIVE + b"\x4b" * 64 + b"\x4c" * 64) + offer(b"a", SIX + b"\x4b" * 65 + b"\x4c" * 65)
    alerts = b"A city S3 1743314999 3600 50\nA city S3 1743315000 3600 50\nE\n"
    city = ("replay", "samples/city.toml")
    yield "eleven bytes", ("replay",), (TOP / "samples/first.script").read_bytes()
    yield "groups, 64 and 65 deep", ("replay",), b"F a\n" + deep + b"E\n"
    yield "messages at fault", ("replay",), b"F a\n" + b"".join(offer(b"a", it) for it in FAULTS) + b"E\n"
    yield "a delayed board", city, (TOP / "samples/late.script").read_bytes()
    yield "a timetable with byte order marks", ("check", marked_city(folder)), b""
    yield "alerts", city, offer(b"a", LIFT) + alerts
    yield "a connection of three requests", city, connection(ASK * 3 + b"GE") + b"E\n"


FEED_LINE = r"feed \w+ accepted (\d+) refused (\d+) starved (\d+) toolong (\d+) last (\d+)\n"
READERS_LINE = r"readers (\d+) connections (\d+) responses (\d+) starved (\d+)\n"


def told(lines, feeds):
    """The numbers of a server's last lines: those of each feed, and those of the readers. None where they aren't such
    lines."""
    found = re.fullmatch(FEED_LINE * feeds + READERS_LINE, lines)
    numbers = [int(text) for text in found.groups()] if found else []
    return ([numbers[5 * feed:5 * feed + 5] for feed in range(feeds)], numbers[5 * feeds:]) if found else None


def ending(wanted, got):
    """What a run with a refused request came to, next to the run without one; None where it may not come to that."""
    status, output = got
    if got == wanted:
        return "own answer"
    if status == OUT_OF_MEMORY and wanted[1].startswith(output):
        return "status 6"
    return None


def end_of_start(wanted, got):
    """The same of a server that has two messages for the first of two feeds."""
    status, output = got
    lines = told(output.decode(), 2)
    if got == wanted:
        return "own answer"
    if status == OUT_OF_MEMORY and (not output or lines):
        return "status 6"
    if status == wanted[0] and lines:
        accepted, refused, starved, too_long, _ = lines[0][0]
        if (accepted + starved, refused, too_long) == (2, 0, 0):
            return "starved message"
    return None


class Places:
    """Runs of one input with each of its requests refused, as many at a time as there are processors."""

    def __init__(self, program, library, folder):
        self.count = os.cpu_count() or 1
        self.made = (Orders(program, library, folder / f"orders{place}") for place in range(self.count))
        self.lock = threading.Lock()
        self.own = threading.local()

    def orders(self):
        if not hasattr(self.own, "orders"):
            with self.lock:
                self.own.orders = next(self.made)
        return self.own.orders

    def run(self, words, script, first=0, onward=0):
        return self.orders().run(words, script, first, onward)

    def asked(self):
        return self.orders()["asked"]


ALONE, ALL_AFTER = (0, "one refused"), (1, "all from one on refused")


def try_input(places, pool, case, status=0, modes=(ALONE, ALL_AFTER), judge=ending):
    """Tells how the runs of an input ended; whether all did as they should."""
    name, words, script = case
    wanted, requests = pool.submit(lambda: (places.run(words, script), places.asked())).result()
    well = wanted[0] == status
    print(f"{name}: status {wanted[0]}, {len(wanted[1])} bytes, {requests} requests for memory")
    for onward, what in modes:
        ran = pool.map(lambda first: places.run(words, script, first, onward), range(1, requests + 1))
        counts = Counter()
        for first, got in enumerate(ran, 1):
            how = judge(wanted, got) or "OTHER"
            counts[how] += 1
            if how == "OTHER" and counts[how] == 1:
                print(f"    request {first}, {what}: status {got[0]}, and it printed {got[1]!r}")
        print(f"    {what}: " + ", ".join(f"{how} {count}" for how, count in sorted(counts.items())))
        well = well and not counts["OTHER"]
    return well


def rows(program, library, folder):
    places = Places(program, library, folder)
    with ThreadPoolExecutor(places.count) as pool:
        return all([try_input(places, pool, case) for case in inputs(folder)])


def start(program, library, folder):
    """A server that has two messages and can't listen. Each request is refused alone: a hub that publishes waits for
    memory, and would not end where all after it are refused too."""
    (folder / "spool").mkdir()
    for count, payload in enumerate((FIVE, SIX), 1):
        (folder / f"spool/{count:06d}.pb").write_bytes(payload)
    conf = folder / "hub.toml"
    city = (TOP / "samples/city.toml").read_text()
    spool = f'kind = "spool"\nplace = "{folder}/spool"\n\n'
    conf.write_text('listen = "nowhere"\n' + spool.join(re.split(r"(?<=schedule = \"city\"\n)\n", city, maxsplit=1)))
    places = Places(program, library, folder)
    with ThreadPoolExecutor(places.count) as pool:
        case = ("a server that can't listen", ("serve", str(conf)), b"")
        return try_input(places, pool, case, status=1, modes=(ALONE,), judge=end_of_start)


class Waiting:
    """Runs of a server up to where it waits for clients, with some of its requests refused up to there."""

    def __init__(self, program, library, folder):
        self.conf = folder / "hub.toml"
        city = (TOP / "samples/city.toml").read_text()
        feeds = re.sub(r'(?<=schedule = "city"\n)', 'kind = "none"\n', city)
        self.conf.write_text('listen = "127.0.0.1:0"\nreaders = 2\n' + feeds)
        self.program = program
        self.orders = Orders(program, library, folder / "orders")

    def run(self, first=0, onward=0):
        """How it went, and how many requests there were before its first client."""
        self.orders.begin(first, onward)
        with subprocess.Popen([self.program, "serve", self.conf], env=self.orders.environment, cwd=TOP, text=True,
                              stdout=subprocess.PIPE, stderr=subprocess.PIPE) as hub:
            try:
                return self.outcome(hub)
            finally:
                hub.kill()

    def outcome(self, hub):
        asked, listens, began = 0, False, time.monotonic()
        since = began
        while hub.poll() is None and not (listens and time.monotonic() - since > 0.3):
            if time.monotonic() - began > SECONDS / 6:
                return "neither ended nor waits without asking for memory", asked
            time.sleep(0.01)
            listens = listens or bool(select.select([hub.stderr], [], [], 0)[0])
            if asked != self.orders["asked"]:
                asked, since = self.orders["asked"], time.monotonic()
        if hub.poll() is not None:
            said = hub.stdout.read()
            return f"status {hub.returncode}" + (f", and it printed {said!r}" if said else ""), asked
        self.orders["first"] = 0
        said = re.fullmatch(r"hub: listening on 127\.0\.0\.1:(\d+)\n", hub.stderr.readline())
        if not said or not self.answers(("127.0.0.1", int(said[1]))):
            return "neither ended nor answered", asked
        return "answered", asked

    @staticmethod
    def answers(address):
        """Whether it answers, by one of two readers, of which the other may have failed."""
        try:
            return any(ask(address, 0)["responses"] == REQUESTS for _ in range(4))
        except OSError:
            return False


def opening(program, library, folder):
    """A server that listens. Where a request is refused, alone or with all after it, it ends with status 6, or answers
    once memory is there again; it never asks for memory without end."""
    waiting = Waiting(program, library, folder)
    wanted, requests = waiting.run()
    print(f"a server up to its first client: {wanted}, {requests} requests for memory")
    well = wanted == "answered"
    for onward, what in (ALONE, ALL_AFTER):
        counts = Counter(waiting.run(first, onward)[0] for first in range(1, requests + 1))
        print(f"    {what}: " + ", ".join(f"{how} {count}" for how, count in sorted(counts.items())))
        well = well and not set(counts) - {"status 6", "answered"}
    return well


READERS, CONNECTIONS, REQUESTS = 4, 500, 8  # readers, connections of each, requests on each
FEEDS, MESSAGES = 2, 2000
TARGETS = ("/board/city/ST", "/board/city/ST?format=json", "/alerts/city/ST", "/status", "/feed/city",
           "/unmatched/city")


def configuration(addresses):
    first = datetime.date.today() - datetime.timedelta(days=1)
    schedule = f"""readers = {READERS}
connections = {CONNECTIONS}
listen = "127.0.0.1:0"
[[schedule]]
name = "city"
folder = "samples/serve/city"
zone = "CET-1CEST,M3.5.0,M10.5.0/3"
first = "{first:%Y%m%d}"
days = 3
"""
    feed = '[[feed]]\nname = "feed{}"\nschedule = "city"\nkind = "stream"\nplace = "127.0.0.1:{}"\n'
    return schedule + "".join(feed.format(*named) for named in enumerate(addresses))


def message(feed, stamp, today):
    """Changes (DIFFERENTIAL): a tram, another for each feed, is late."""
    late = run(2, number(1, 1) + run(3, number(1, stamp % 600)))
    update = run(3, run(1, run(1, b"7H%02d03" % (feed + 8)) + run(3, today)) + late)
    head = run(1, run(1, b"2.0") + number(2, 1) + number(3, stamp))
    return head + run(2, run(1, b"u%d" % (stamp % 20)) + update)


def send(listener, feed, begin):
    """Sends the messages of a feed, some five hundred a second, and closes."""
    today = datetime.date.today().strftime("%Y%m%d").encode()
    link, _ = listener.accept()
    begin.wait()
    with link:
        for stamp in range(1, MESSAGES + 1):
            payload = message(feed, 1000 + stamp, today)
            link.sendall(struct.pack(">I", len(payload)) + payload)
            time.sleep(0.002)


def responses(link):
    """The whole responses of a connection up to its end: their numbers and statuses; and how many bytes were left."""
    data, found = b"", []
    try:
        while part := link.recv(65536):
            data += part
    except ConnectionResetError:
        pass  # closed before all requests were read
    while head := re.match(rb"HTTP/1\.1 (\d+) .*?\r\n\r\n", data, re.DOTALL):
        length = int(re.search(rb"\r\nContent-Length: (\d+)\r\n", head[0])[1])
        if len(data) < head.end() + length:
            break
        found.append((int(re.search(rb"\r\nX-Hub-Sequence: (\d+)\r\n", head[0])[1]), int(head[1])))
        data = data[head.end() + length:]
    return found, len(data)


def ask(address, place):
    """Asks on a connection, and counts what came."""
    targets = [TARGETS[(place + count) % len(TARGETS)] for count in range(REQUESTS)]
    asks = "".join(f"GET {target} HTTP/1.1\r\nHost: hub\r\n\r\n" for target in targets[:-1])
    last = f"GET {targets[-1]} HTTP/1.1\r\nHost: hub\r\nConnection: close\r\n\r\n"
    with socket.create_connection(address, timeout=SECONDS) as link:
        link.sendall((asks + last).encode())
        found, left = responses(link)
    numbers = [sequence for sequence, _ in found]
    return Counter({
        "connections": 1,
        "responses": len(found),
        "closed early": len(found) < REQUESTS,
        "cut": left > 0,
        "falling": numbers != sorted(numbers),
        "other": any(status != 200 for _, status in found),
    })


class Server:
    """A hub of the configuration, and the senders of its feeds."""

    def __init__(self, program, library, folder):
        listeners = [socket.create_server(("127.0.0.1", 0)) for _ in range(FEEDS)]
        conf = folder / "hub.toml"
        conf.write_text(configuration([listener.getsockname()[1] for listener in listeners]))
        self.orders = Orders(program, library, folder / "orders")
        self.begin = threading.Event()
        self.senders = [threading.Thread(target=send, args=(listener, feed, self.begin), daemon=True)
                        for feed, listener in enumerate(listeners)]
        for sender in self.senders:
            sender.start()
        self.hub = subprocess.Popen([program, "serve", conf], env=self.orders.environment, cwd=TOP, text=True,
                                    stdout=subprocess.PIPE, stderr=subprocess.PIPE)
        line = self.hub.stderr.readline()
        said = re.fullmatch(r"hub: listening on 127\.0\.0\.1:(\d+)\n", line)
        if not said:
            self.hub.kill()
            sys.exit(f"no_memory.py: the hub said {line!r}")
        self.address = ("127.0.0.1", int(said[1]))

    def settle(self):
        """Waits until the hub asks for no more memory, since all its threads wait for messages and requests."""
        asked = None
        while asked != self.orders["asked"]:
            asked = self.orders["asked"]
            time.sleep(0.5)

    def load(self):
        """All connections, beside the feeds' messages, while requests are refused; but for the first and the last one,
        at which none is. What the clients counted, how many requests there were and were refused, and whether those
        two were answered."""
        first = ask(self.address, 0)
        self.settle()
        before = self.orders["asked"]
        self.orders["every"] = 1000
        self.begin.set()
        with ThreadPoolExecutor(2 * READERS) as pool:
            seen = sum(pool.map(lambda place: ask(self.address, place), range(READERS * CONNECTIONS - 2)), Counter())
        for sender in self.senders:
            sender.join()
        self.settle()
        asked = self.orders["asked"] - before
        self.orders["every"] = 0
        last = ask(self.address, 0)
        went_on = first["responses"] == last["responses"] == REQUESTS
        return first + seen + last, asked, self.orders["refused"], went_on

    def end(self):
        """The status and the lines of the hub, once it has ended by itself."""
        out, _ = self.hub.communicate(timeout=SECONDS)
        return self.hub.returncode, out


def judged(what, well):
    print(f"{'ok     ' if well else 'FAILED '} {what}")
    return well


def serve(program, library, folder):
    server = Server(program, library, folder)
    try:
        seen, asked, refused, went_on = server.load()
        status, lines = server.end()
    finally:
        server.hub.kill()
    print(f"{asked} requests under load, {refused} refused; clients saw " +
          ", ".join(f"{what} {seen[what]}" for what in ("connections", "responses", "closed early", "cut")))
    print(lines, end="")
    feeds, readers = told(lines, FEEDS) or ([[0] * 5] * FEEDS, [])
    starved = sum(feed[2] for feed in feeds)
    return all([
        judged("the hub went on, and ended by itself with status 0", went_on and status == 0),
        judged("messages and connections were starved", starved > 0 and seen["closed early"] > 0),
        judged("each message was accepted or counted as starved, and none as refused",
               all(feed[0] + feed[2] == MESSAGES and feed[1] == feed[3] == 0 for feed in feeds)),
        judged("each connection got whole responses, of numbers that never fall, up to its end",
               not seen["cut"] and not seen["falling"] and not seen["other"]),
        judged("the line of the readers counts what the clients saw",
               readers == [READERS, READERS * CONNECTIONS, seen["responses"], seen["closed early"]]),
    ])


def main():
    what, program, library, folder = sys.argv[1:]
    well = {"rows": rows, "start": start, "open": opening, "serve": serve}[what](program, library, Path(folder))
    sys.exit(not well)


main()
