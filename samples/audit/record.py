#!/usr/bin/env python3
"""Stands between the sender of a feed and the hub, and keeps each message before it hands it on.

usage: record.py FOLDER FEED ADDRESS SOURCE

FOLDER is where the records go, a file a day (see records.py); FEED the feed's name in the hub's configuration. At ADDRESS
(HOST:PORT, 0 for a free port) the hub finds it: a feed of kind "stream" whose place is this address. SOURCE is where the
messages come from: HOST:PORT of a sender, to which it connects for each hub that connects here, as the hub would; or the
folder of a spool, which it reads as the hub would, up to the first gap.

It stands in the stream since all that a hub takes of a feed goes through there, in the order in which the hub takes it.
Where the sender ends, or the hub, it ends that connection, and waits for the next hub.
"""
import os
import socket
import struct
import sys
import threading
import time
from pathlib import Path

from records import Recorder

LONGEST = 16_777_216  # bytes of a message: at a longer one a hub ends the stream


def sent(source):
    """The messages of a sender."""
    host, port = source.rsplit(":", 1)
    with socket.create_connection((host, int(port)), timeout=5) as link, link.makefile("rb") as file:
        link.settimeout(None)
        while len(head := file.read(4)) == 4:
            length = struct.unpack(">I", head)[0]
            if length > LONGEST or len(payload := file.read(length)) < length:
                return
            yield payload


def spooled(folder):
    """The messages of a spool, and then nothing more: the connection stays as it is."""
    number = 1
    while (path := Path(folder) / f"{number:06d}.pb").exists():
        yield path.read_bytes()
        number += 1
    threading.Event().wait()


def relay(recorder, source, link):
    """Keeps and hands on what comes, until the sender or the hub is gone."""
    run = time.time()
    recorder.add(run, 0, b"")
    messages = spooled(source) if os.path.isdir(source) else sent(source)
    try:
        with link:
            for place, payload in enumerate(messages, 1):
                recorder.add(run, place, payload)
                link.sendall(struct.pack(">I", len(payload)) + payload)
    except OSError as error:
        print(f"record.py: {recorder.feed}: {error}", file=sys.stderr, flush=True)


def main():
    if len(sys.argv) != 5:
        sys.exit(__doc__)
    folder, feed, address, source = sys.argv[1:]
    recorder = Recorder(folder, feed)
    host, port = address.rsplit(":", 1)
    listener = socket.create_server((host, int(port)))
    print("record.py: listening on %s:%d" % listener.getsockname()[:2], file=sys.stderr, flush=True)
    while True:
        link, _ = listener.accept()
        threading.Thread(target=relay, args=(recorder, source, link), daemon=True).start()


main()
