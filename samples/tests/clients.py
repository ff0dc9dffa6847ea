#!/usr/bin/env python3
"""Clients of a hub that behave badly, for clients.sh.

usage: clients.py silent ADDRESS COUNT   opens COUNT connections that say nothing and asks for the status on one more
       clients.py drip ADDRESS SECONDS   sends a request at one byte each SECONDS, and asks for another meanwhile
       clients.py gone ADDRESS COUNT     COUNT times: asks for a thousand feeds at once, reads a little and goes away
       clients.py post ADDRESS           sends a POST with a body of 1 MB, and reads only then
       clients.py last ADDRESS           asks for a thousand feeds and says more, and reads only then, slowly
       clients.py hello ADDRESS          sends the first bytes of TLS, with a line feed among them and without one
       clients.py deaf                   a sender that never answers: it says where, and stays until it is ended
       clients.py bad COUNT EACH         a sender that says where, sends COUNT messages that are none, one each EACH
                                         seconds, and ends; it says how many bytes the hub has sent to it
"""
import socket
import struct
import sys
import time

ASK = b"GET /status HTTP/1.1\r\nHost: hub\r\nConnection: close\r\n\r\n"


def connect(address):
    host, port = address.rsplit(":", 1)
    return socket.create_connection((host, int(port)), timeout=60)


def answer(link):
    """All that comes until the hub closes."""
    parts = []
    while part := link.recv(65536):
        parts.append(part)
    return b"".join(parts)


def asked(address):
    """How long an answer took, in seconds, where it was one."""
    began = time.monotonic()
    with connect(address) as link:
        link.sendall(ASK)
        if not answer(link).startswith(b"HTTP/1.1 200 OK\r\n"):
            sys.exit("clients.py: no answer")
    return time.monotonic() - began


def silent(address, count):
    links = [connect(address) for _ in range(count)]
    time.sleep(0.5)
    took = asked(address)
    closed = [answer(link) for link in links]
    print(f"with {count} silent connections the next one was answered after {took:.1f} s")
    print(f"{sum(not it for it in closed)} of them were closed without a byte")


def drip(address, seconds):
    with connect(address) as link:
        began = time.monotonic()
        said = None
        link.settimeout(seconds)
        for place in range(len(ASK)):
            try:
                link.sendall(ASK[place:place + 1])
                if place == 0:
                    print(f"another was answered meanwhile after {asked(address):.1f} s")
                said = link.recv(65536)
                break
            except TimeoutError:  # nothing yet
                pass
            except ConnectionError:
                said = b""
                break
    print(f"a byte each {seconds} s: closed with {len(said)} bytes of answer after {time.monotonic() - began:.0f} s")


def whole(said):
    """How many responses there are, each whole."""
    count = 0
    while said:
        head, _, rest = said.partition(b"\r\n\r\n")
        length = next(int(line.split(b":")[1]) for line in head.split(b"\r\n") if line.lower().startswith(b"content-length:"))
        if len(rest) < length:
            break
        said = rest[length:]
        count += 1
    return count


def late(address, asks, room=None):
    """What comes where all is sent before anything is read."""
    host, port = address.rsplit(":", 1)
    with socket.socket() as link:
        if room:
            link.setsockopt(socket.SOL_SOCKET, socket.SO_RCVBUF, room)
        link.connect((host, int(port)))
        link.settimeout(60)
        try:
            link.sendall(asks)
        except ConnectionError:  # the hub reads no more
            pass
        time.sleep(0.5)
        parts = []
        try:
            while part := link.recv(4096):
                parts.append(part)
        except ConnectionError:
            print("reset at the end")
        return b"".join(parts)


def first_line(said):
    return said.split(b"\r\n", 1)[0].decode()


def post(address):
    body = 1_000_000
    head = b"POST /status HTTP/1.1\r\nHost: hub\r\nContent-Length: %d\r\n\r\n" % body
    said = late(address, head + bytes(body))
    print(f"{whole(said)} whole answer: {first_line(said)}")


def last(address):
    said = late(address, b"GET /feed/city HTTP/1.1\r\nHost: hub\r\n\r\n" * 1000 + bytes(2000), 4096)
    print(f"{whole(said)} whole answers in {len(said)} bytes")


def hello(address):
    for byte, told in ((10, "a"), (11, "no")):
        # A client's hello of TLS 1.3 (RFC 8446, sections 4.1.2 and 5.1), its random of one byte.
        body = b"\x03\x03" + bytes([byte] * 32) + b"\0\0\x02\x13\x01\x01\0"
        shake = b"\x01" + len(body).to_bytes(3, "big") + body
        began = time.monotonic()
        with connect(address) as link:
            link.sendall(b"\x16\x03\x01" + len(shake).to_bytes(2, "big") + shake)
            said = answer(link)
        print(f"a hello with {told} line feed: '{first_line(said)}' and closed after {time.monotonic() - began:.0f} s")


def bad(count, each):
    server = socket.create_server(("127.0.0.1", 0))
    address = server.getsockname()
    print(f"clients.py: bad at {address[0]}:{address[1]}", file=sys.stderr, flush=True)
    link, _ = server.accept()
    for _ in range(count):
        link.sendall(b"\0\0\0\x03bad")
        time.sleep(each)
    link.shutdown(socket.SHUT_WR)
    link.settimeout(2)
    came = 0
    try:
        while part := link.recv(4096):
            came += len(part)
    except TimeoutError:  # the hub keeps the connection, and sends no more
        pass
    print(f"{came} bytes came from the hub")


def deaf():
    server = socket.create_server(("127.0.0.1", 0), backlog=0)
    address = server.getsockname()
    links = []
    for _ in range(8):  # as many as wait to be accepted; the system answers no further one
        link = socket.socket()
        link.setblocking(False)
        link.connect_ex(address)
        links.append(link)
    time.sleep(0.5)
    print(f"clients.py: deaf at {address[0]}:{address[1]}", file=sys.stderr, flush=True)
    time.sleep(3600)


def gone(address, count):
    asks = b"GET /feed/city HTTP/1.1\r\nHost: hub\r\n\r\n" * 1000
    for _ in range(count):
        link = connect(address)
        link.settimeout(0.2)
        try:
            link.sendall(asks)
        except TimeoutError:  # the hub answers before it reads on
            pass
        link.recv(10)
        # Closed with a reset: what is under way is lost.
        link.setsockopt(socket.SOL_SOCKET, socket.SO_LINGER, struct.pack("ii", 1, 0))
        link.close()
    print(f"{count} clients went away in the midst of their answers; the next one was answered after"
          f" {asked(address):.1f} s")


def main():
    what, *rest = sys.argv[1:]
    words = {"silent": silent, "drip": drip, "gone": gone, "post": post, "last": last,
             "hello": hello, "deaf": deaf, "bad": bad}
    words[what](*(it if ":" in it else int(it) for it in rest))


main()
