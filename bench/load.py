"""How fast a running hub answers for a small board, next to nginx with a file of the same bytes, for running.sh.

usage: load.py PROGRAM [SECONDS [ROUNDS]]   the seconds of each measurement, by default 1, and how many of them, by default 9

With 1, 2 and 4 readers, each at work for one connection of wrk, and again while 200 messages a second come in. The
numbers are those of wrk: answers a second, and the median and the 99th of a hundred of the times that they took. The
hub and nginx are measured in turns, each for a short time, since a machine that others share is now faster and now
slower; what is printed is the median of the rounds, and of the ratios of each round the median, the least and the
greatest.
"""
import csv
import os
import re
import shutil
import statistics
import subprocess
import sys
import tempfile
import time

from running_hub import BENCH, Hub, Sender, changes, frames

PROGRAM = sys.argv[1]
SECONDS = int(sys.argv[2]) if len(sys.argv) > 2 else 1
ROUNDS = int(sys.argv[3]) if len(sys.argv) > 3 else 9
MILLISECONDS = {"us": 0.001, "ms": 1.0, "s": 1000.0}
CITY = os.path.join(os.path.dirname(BENCH), "samples/serve/city")
BOARD = "/board/city/ST?limit=5"
EACH_SECOND = 200


class Rate:
    """Answers a second, and the median and the 99th of a hundred of their times, in milliseconds."""

    def __init__(self, rate, median, late):
        self.rate, self.median, self.late = rate, median, late

    def __str__(self):
        return f"{self.rate:,.0f} ({self.median:.3f} and {self.late:.3f} ms)"


def middle(rates):
    """The medians of the three numbers."""
    return Rate(*(statistics.median(getattr(one, part) for one in rates) for part in ("rate", "median", "late")))


def compared(some, others):
    """The ratios of the answers a second, round by round: the median, the least and the greatest."""
    ratios = [one.rate / other.rate for one, other in zip(some, others)]
    return f"{statistics.median(ratios):.2f} ({min(ratios):.2f} to {max(ratios):.2f})"


def milliseconds(text):
    number, unit = re.fullmatch(r"([\d.]+)(us|ms|s)", text).groups()
    return float(number) * MILLISECONDS[unit]


def measured(url, connections):
    """What wrk measures there, with so many connections."""
    words = ["wrk", "--latency", "-t", str(min(connections, 2)), "-c", str(connections), "-d", str(SECONDS), url]
    said = subprocess.run(words, capture_output=True, text=True, check=True).stdout
    if "Non-2xx" in said or "Socket errors" in said:
        sys.exit(f"load.py: not all was answered:\n{said}")
    rate = float(re.search(r"Requests/sec:\s+([\d.]+)", said).group(1))
    return Rate(rate, *(milliseconds(re.search(rf"^\s+{part}%\s+(\S+)", said, re.M).group(1)) for part in (50, 99)))


class Nginx:
    """An nginx with so many workers that gives out one file of these bytes."""

    def __init__(self, body, workers):
        self.work = tempfile.TemporaryDirectory()
        os.chmod(self.work.name, 0o755)
        with open(os.path.join(self.work.name, "board"), "wb") as out:
            out.write(body)
        config = os.path.join(self.work.name, "nginx.conf")
        with open(config, "w", encoding="utf-8") as out:
            out.write(f"worker_processes {workers};\npid {self.work.name}/pid;\nerror_log {self.work.name}/errors;\n"
                      f"daemon off;\nevents {{}}\nhttp {{ access_log off; keepalive_requests 100000000;\n"
                      f"open_file_cache max=10;\n"
                      f"server {{ listen 127.0.0.1:18099 reuseport; root {self.work.name}; }} }}\n")
        self.process = subprocess.Popen(["nginx", "-c", config, "-e", f"{self.work.name}/errors"],
                                        stderr=subprocess.DEVNULL)
        self.url = "http://127.0.0.1:18099/board"
        time.sleep(0.5)

    def close(self):
        self.process.terminate()
        self.process.wait()
        self.work.cleanup()


def trickle(seconds):
    """The messages of that many seconds, one after another, each about twenty trips of the city."""
    with open(os.path.join(CITY, "trips.txt"), encoding="utf-8", newline="") as file:
        trips = [row["trip_id"].encode() for row in csv.DictReader(file)]
    return [frames([payload]) for payload in changes(EACH_SECOND * seconds, trips, places=range(1, 4))]


def main():
    if not shutil.which("wrk") or not shutil.which("nginx"):
        sys.exit("load.py: it needs wrk and nginx")
    print("answers a second for a board of the city of samples/serve; the median and the 99th of a hundred")
    for readers in (1, 2, 4):
        sender = Sender(trickle(2 * (ROUNDS + 2) * SECONDS), 1 / EACH_SECOND)
        hub = Hub(PROGRAM, CITY, readers, [sender])
        url = f"http://{hub.address}{BOARD}"
        nginx = Nginx(hub.ask(BOARD), readers)
        still, file = in_turn(url, nginx.url, readers)
        sender.begin.set()
        moving, file_then = in_turn(url, nginx.url, readers)
        sender.close()
        hub.close()
        nginx.close()
        print(f"  {readers} readers: {middle(still)}; nginx, as many workers, a file of the same bytes: {middle(file)};"
              f" the hub does {compared(still, file)} of that")
        print(f"    while {EACH_SECOND} messages a second come in: {middle(moving)}, nginx {middle(file_then)}; the hub does"
              f" {compared(moving, still)} of what it does without")


def in_turn(url, other, readers):
    """What is measured at the two addresses, one after the other, round by round."""
    rounds = [(measured(url, readers), measured(other, readers)) for _ in range(ROUNDS)]
    return [one for one, _ in rounds], [one for _, one in rounds]


main()
