"""How many messages a second a running hub takes, for running.sh.

usage: ingest.py PROGRAM [MESSAGES]   the messages of 20 entities each that all feeds together send, by default 8000

For 1, 2 and 4 feeds with 0 and 4 readers at work, next to `hub replay` of the messages of one feed. Where valgrind is
there it also counts what taking a message costs outside of the lock and under it.
"""
import os
import re
import shutil
import subprocess
import sys
import tempfile
import time

from running_hub import BENCH, YESTERDAY, Hub, Sender, changes, frames, made_trips

PROGRAM = sys.argv[1]
MESSAGES = int(sys.argv[2]) if len(sys.argv) > 2 else 8000
TRIPS = 2000
COUNTED = 200
# What is done before the lock, and under it.
PARTS = {
    "in front of the lock, reading and judging": "hub_core::judge::check",
    "under it, making the view": "hub_state::state::HubCore::prepare",
    "under it, publishing it": "snapshot_cell::copies::show_to_all",
}


def senders_of(feeds, count):
    """A sender for each feed, of its part of the messages."""
    return [Sender([frames(changes(count // feeds, made_trips(TRIPS), shift=13 * feed))]) for feed in range(feeds)]


def readers_at_work(hub, count):
    """A process that asks for a board on so many connections, without end."""
    if not count:
        return None
    if not shutil.which("wrk"):
        sys.exit("ingest.py: readers at work need wrk")
    url = f"http://{hub.address}/board/city/S3?limit=3"
    return subprocess.Popen(["wrk", "-t", "1", "-c", str(count), "-d", "600", url], stdout=subprocess.DEVNULL)


def rate(feeds, readers):
    """Messages a second: from the first byte sent until all are accepted."""
    senders = senders_of(feeds, MESSAGES)
    hub = Hub(PROGRAM, TRIPS, readers + 1, senders)
    at_work = readers_at_work(hub, readers)
    time.sleep(0.3)
    began = time.monotonic()
    for sender in senders:
        sender.begin.set()
    hub.wait_for(MESSAGES)
    took = time.monotonic() - began
    if at_work:
        at_work.kill()
        at_work.wait()
    for sender in senders:
        sender.close()
    hub.close()
    return MESSAGES / took


def replayed():
    """Messages a second of `hub replay`, less the time of a script of none."""
    with tempfile.TemporaryDirectory() as work:
        folder = os.path.join(work, "city")
        subprocess.run([sys.executable, os.path.join(BENCH, "make_timetable.py"), str(TRIPS), folder], check=True)
        config = folder + ".toml"
        with open(config, encoding="utf-8") as file:
            said = re.sub('first = ".*"', f'first = "{YESTERDAY}"', file.read())
        with open(config, "w", encoding="utf-8") as out:
            out.write(said + '[[feed]]\nname = "f0"\nschedule = "city"\n')
        seconds = []
        for messages in ([], changes(MESSAGES, made_trips(TRIPS))):
            script = os.path.join(work, "script")
            with open(script, "wb") as out:
                out.write(b"".join(b"M f0 %d\n%s\n" % (len(payload), payload) for payload in messages) + b"E\n")
            with open(script, "rb") as given:
                began = time.monotonic()
                subprocess.run([PROGRAM, "replay", config], stdin=given, stdout=subprocess.DEVNULL, check=True)
                seconds.append(time.monotonic() - began)
        return MESSAGES / (seconds[1] - seconds[0])


def parts():
    """What each part of taking a message costs, in instructions, and of how much it is found."""
    with tempfile.TemporaryDirectory() as work:
        calls = os.path.join(work, "calls")
        senders = senders_of(1, COUNTED)
        hub = Hub(PROGRAM, TRIPS, 1, senders, ["valgrind", "--tool=callgrind", f"--callgrind-out-file={calls}"])
        senders[0].begin.set()
        hub.wait_for(COUNTED, 0.5)
        senders[0].close()
        hub.close()
        said = subprocess.run(["callgrind_annotate", "--inclusive=yes", "--threshold=100", calls],
                              capture_output=True, text=True, check=True).stdout
    for what, name in PARTS.items():
        found = re.search(rf"^ *([\d,]+) .*{re.escape(name)}\b", said, re.M)
        if found:
            yield what, int(found.group(1).replace(",", "")) / COUNTED


def main():
    print(f"messages a second, of {MESSAGES:,} with 20 entities each over {TRIPS:,} trips, by the feeds that send them")
    alone = replayed()
    print(f"  hub replay, one feed: {alone:,.0f}")
    for feeds in (1, 2, 4):
        for readers in (0, 4):
            found = rate(feeds, readers)
            print(f"  {feeds} feeds beside {readers} readers at work: {found:,.0f}, {found / alone:.2f} of replay's")
    if shutil.which("valgrind"):
        print("instructions of a message")
        for what, count in parts():
            print(f"  {what}: {count:,.0f}")


main()
