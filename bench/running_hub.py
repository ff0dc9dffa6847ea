"""A hub that runs, and senders of its feeds, for the scripts that measure one."""
import os
import re
import socket
import struct
import subprocess
import sys
import tempfile
import threading
import time
import urllib.request

BENCH = os.path.dirname(os.path.abspath(__file__))
sys.path.append(os.path.join(os.path.dirname(BENCH), "samples/serve"))
from wire import number, run
ZONE = "CET-1CEST,M3.5.0,M10.5.0/3"
# Today, and yesterday as the first day of the window: boards are asked for now.
DATE = time.strftime("%Y%m%d").encode()
YESTERDAY = time.strftime("%Y%m%d", time.localtime(time.time() - 86400))
# The stamp of the first message, a day ago.
FIRST = int(time.time()) - 86400


def header(stamp, whole=False):
    """A message without entities; a differential one where it is not whole."""
    return run(1, run(1, b"2.0") + number(2, 0 if whole else 1) + number(3, stamp))


def entities_of(pairs):
    """The entities of these ids and payloads, as they come after a header."""
    return b"".join(run(2, run(1, name) + payload) for name, payload in pairs)


def made_trips(count):
    """The first trips of make_timetable.py."""
    return [b"T%d" % k for k in range(count)]


def late(trip, delay, places=range(1, 21, 4)):
    """An entity by which a trip is late today, and later at each of these places."""
    told = b"".join(run(2, number(1, place) + run(3, number(1, delay + 10 * place))) for place in places)
    return trip, run(3, run(1, run(1, trip) + run(3, DATE)) + told)


def changes(count, trips, entities=20, shift=0, places=range(1, 21, 4)):
    """So many differential messages, each of which changes some of the trips."""
    return [header(FIRST + m)
            + entities_of([late(trips[(m * 7919 + k * 97 + shift) % len(trips)], (m * 37 + k * 11) % 600, places)
                           for k in range(entities)])
            for m in range(count)]


def frames(messages):
    """What a stream sends: each message after four bytes of its length."""
    return b"".join(struct.pack(">I", len(payload)) + payload for payload in messages)


class Sender:
    """Waits for a hub at a port of its own, sends what it is given once it may begin, and keeps the connection."""

    def __init__(self, parts, pause=0.0):
        self.listener = socket.create_server(("127.0.0.1", 0))
        self.address = "127.0.0.1:%d" % self.listener.getsockname()[1]
        self.parts, self.pause = parts, pause
        self.begin, self.end = threading.Event(), threading.Event()
        self.thread = threading.Thread(target=self.send, daemon=True)
        self.thread.start()

    def send(self):
        link, _ = self.listener.accept()
        self.begin.wait()
        for part in self.parts:
            if self.end.is_set():
                break
            try:
                link.sendall(part)
            except ConnectionError:
                break
            if self.pause:
                time.sleep(self.pause)
        self.end.wait()
        link.close()

    def close(self):
        self.begin.set()
        self.end.set()
        self.thread.join()
        self.listener.close()


class Hub:
    """A hub with that many readers, and a stream feed for each sender, of the timetable in a folder, or of one of
    make_timetable.py with that many trips. `before` are words in front of its own, as valgrind's."""

    def __init__(self, program, timetable, readers, senders, before=()):
        self.work = tempfile.TemporaryDirectory()
        folder = timetable
        if isinstance(timetable, int):
            folder = os.path.join(self.work.name, "city")
            words = [os.path.join(BENCH, "make_timetable.py"), str(timetable), folder]
            subprocess.run([sys.executable, *words], check=True)
        config = os.path.join(self.work.name, "hub.toml")
        with open(config, "w", encoding="utf-8") as out:
            out.write(f'readers = {readers}\nlisten = "127.0.0.1:0"\n')
            out.write(f'[[schedule]]\nname = "city"\nfolder = "{folder}"\nzone = "{ZONE}"\nfirst = "{YESTERDAY}"\ndays = 3\n')
            for place, sender in enumerate(senders):
                out.write(f'[[feed]]\nname = "f{place}"\nschedule = "city"\nkind = "stream"\nplace = "{sender.address}"\n')
        self.process = subprocess.Popen([*before, program, "serve", config], stdout=subprocess.DEVNULL,
                                        stderr=subprocess.PIPE, text=True)
        for line in self.process.stderr:
            found = re.match("hub: listening on (.*)", line)
            if found:
                self.address = found.group(1)
                return
        sys.exit("running_hub.py: the hub does not listen")

    def ask(self, path):
        """The body that it answers."""
        with urllib.request.urlopen(f"http://{self.address}{path}", timeout=60) as answer:
            return answer.read()

    def accepted(self):
        """How many messages it has accepted."""
        return int(self.ask("/status").split(b"\n")[0].split(b"\t")[1])

    def wait_for(self, count, pause=0.01):
        while self.accepted() < count:
            time.sleep(pause)

    def memory(self):
        """The memory that it has now, and the most that it had, in MiB."""
        with open(f"/proc/{self.process.pid}/status", encoding="utf-8") as file:
            said = file.read()
        return [int(re.search(rf"{word}:\s+(\d+)", said).group(1)) / 1024 for word in ("VmRSS", "VmHWM")]

    def seconds(self):
        """The CPU seconds that it took so far."""
        with open(f"/proc/{self.process.pid}/stat", encoding="utf-8") as file:
            words = file.read().rsplit(")", 1)[1].split()
        return (int(words[11]) + int(words[12])) / os.sysconf("SC_CLK_TCK")

    def close(self):
        self.process.terminate()
        self.process.wait()
        self.work.cleanup()
