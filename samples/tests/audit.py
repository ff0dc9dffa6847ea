#!/usr/bin/env python3
"""Writes records of two feeds, and an answer of a hub that took their messages in another order than that in which they
came, for audit.sh.

usage: audit.py HUB CONFIG FOLDER   FOLDER/records, FOLDER/answer and FOLDER/answer.status; the question is /feed/city
"""
import subprocess
import sys
import time
from pathlib import Path

SAMPLES = Path(__file__).resolve().parents[1]
sys.path += [str(SAMPLES / "audit"), str(SAMPLES / "serve")]
from records import day_of
from wire import number, run

TAKEN = {"trams": 4, "notices": 1}  # of five each, which come in turn


def message(stamp, name, delay):
    update = run(3, run(1, run(1, name.encode())) + number(5, delay))
    return run(1, run(1, b"2.0") + number(2, 0) + number(3, stamp)) + run(2, run(1, b"e") + update)


def main():
    hub, config, folder = sys.argv[1:]
    began = int(time.time()) - 10
    offered = b""
    (Path(folder) / "records").mkdir()
    for place, (feed, taken) in enumerate(TAKEN.items()):
        messages = [message(began + count, feed, 60 * count) for count in range(1, 6)]
        with open(Path(folder) / "records" / f"{feed}.{day_of(began)}", "wb") as file:
            file.write(b"message %.6f 0 %.6f 0\n\n" % (began, began))
            for count, payload in enumerate(messages, 1):
                came = began + 0.1 * count + 0.05 * place
                file.write(b"message %.6f %d %.6f %d\n%s\n" % (began, count, came, len(payload), payload))
        offered += b"".join(b"M %s %d\n%s\n" % (feed.encode(), len(it), it) for it in messages[:taken])
    for name, path in (("answer", b"/feed/city"), ("answer.status", b"/status")):
        request = b"GET %s HTTP/1.1\r\nHost: hub\r\n\r\n" % path
        script = offered + b"Q %d %d\n%s\nE\n" % (began, len(request), request)
        said = subprocess.run([hub, "replay", config], input=script, stdout=subprocess.PIPE, check=True).stdout
        line, _, rest = said[said.index(b"connection "):].partition(b"\n")
        (Path(folder) / name).write_bytes(rest[:int(line.split()[1])])


main()
