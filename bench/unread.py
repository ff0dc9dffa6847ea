"""What clients that never read cost a running hub's memory, for running.sh.

usage: unread.py PROGRAM [CLIENTS [SECONDS]]

A feed of 30,000 entities gets whole data sets for that long, as fast as the hub takes them: first without clients, then
with clients that ask for its combined feed and never read; one whose connection the hub ends asks anew. There is a
reader for each client.
"""
import itertools
import os
import socket
import sys
import time

from running_hub import FIRST, Hub, Sender, entities_of, frames, header, late, made_trips

ENTITIES = 30_000
ESTABLISHED = 1


def data_sets():
    """Whole data sets without end, in turns of four as late as the trips are then."""
    trips = made_trips(ENTITIES)
    turns = [entities_of([late(trip, (m * 37 + k * 11) % 600) for k, trip in enumerate(trips)]) for m in range(4)]
    return (frames([header(FIRST + m, whole=True) + turns[m % 4]]) for m in itertools.count())


class Client:
    """Asks for the combined feed, and never reads."""

    def __init__(self, address):
        host, port = address.rsplit(":", 1)
        self.link = socket.socket()
        self.link.setsockopt(socket.SOL_SOCKET, socket.SO_RCVBUF, 4096)
        self.link.connect((host, int(port)))
        self.link.sendall(b"GET /feed/city HTTP/1.1\r\nHost: hub\r\n\r\n")

    def is_over(self):
        return self.link.getsockopt(socket.IPPROTO_TCP, socket.TCP_INFO, 1)[0] != ESTABLISHED


def most_memory(program, clients, seconds):
    """The memory with a first data set, the most in that time, in MiB, and the bytes of a response."""
    sender = Sender(data_sets())
    hub = Hub(program, ENTITIES, 64, [sender])
    bare = hub.memory()[0]
    sender.begin.set()
    hub.wait_for(1)
    state, size = hub.memory()[0] - bare, len(hub.ask("/feed/city"))
    hub.wait_for(3)
    waiting, most, end = [Client(hub.address) for _ in range(clients)], 0.0, time.time() + seconds
    while time.time() < end:
        waiting = [Client(hub.address) if client.is_over() else client for client in waiting]
        most = max(most, hub.memory()[0])
        time.sleep(0.05)
    for client in waiting:
        client.link.close()
    hub.close()
    sender.end.set()
    return state, most, size


def main():
    clients = int(sys.argv[2]) if len(sys.argv) > 2 else 64
    seconds = int(sys.argv[3]) if len(sys.argv) > 3 else 120
    os.environ["MALLOC_ARENA_MAX"] = "1"
    state, alone, size = most_memory(sys.argv[1], 0, seconds)
    _, most, _ = most_memory(sys.argv[1], clients, seconds)
    own = clients * size / 2**20
    print(f"whole data sets of {ENTITIES:,} entities for {seconds} s: at most {alone:.0f} MiB")
    print(f"next to {clients} clients that ask for the combined feed and never read: at most {most:.0f} MiB")
    print(f"  the responses have {own:.0f} MiB, so they take {most - alone - own:.0f} MiB more than these")
    print(f"  a state of the feed has {state:.0f} MiB")


main()
