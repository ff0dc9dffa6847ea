#!/usr/bin/env python3
"""Writes messages with all kinds of entities to standard output, as a replay script.

usage: make_messages.py small COUNT ENTITIES   COUNT differential messages of ENTITIES entities each
       make_messages.py full COUNT ENTITIES    COUNT whole data sets of ENTITIES entities each
       make_messages.py stale ..               the same after a message with the greatest stamp, so that a hub reads
                                               each whole and keeps none; .. are the words of one of the two above
       make_messages.py over COUNT ENTITIES IDS    the same as `small`, after a whole data set of IDS entities, of whose
                                               ids each message changes some; COUNT may be 0
       make_messages.py passed SCRIPT          the bytes of SCRIPT in one record, which is refused at its first byte or as too long

Of ten entities eight are trip updates of five stops each, one is a vehicle and one an alert.
"""
import struct
import sys
from pathlib import Path

sys.path.append(str(Path(__file__).resolve().parents[1] / "samples/serve"))
from wire import number, run, varint


def four(field, value):
    return varint(field * 8 + 5) + struct.pack("<f", value)


def header(stamp, incrementality):
    return run(1, run(1, b"2.0") + number(2, incrementality) + number(3, stamp))


def trip(k):
    return run(1, b"trip-%d" % k) + run(2, b"08:%02d:00" % (k % 60)) + run(3, b"20250330") + run(5, b"R%d" % (k % 90))


def event(delay, time):
    return number(1, delay) + number(2, time)


def stop_update(k, place, stamp):
    delay = (k * 37 + place * 11) % 600 - 120
    time = stamp + 90 * place
    return (
        number(1, place + 1)
        + run(2, event(delay, time))
        + run(3, event(delay + 10, time + 30))
        + run(4, b"stop-%d" % ((k + place * 7) % 4000))
    )


def trip_update(k, stamp):
    stops = b"".join(run(2, stop_update(k, place, stamp)) for place in range(5))
    return run(3, run(1, trip(k)) + stops + run(3, run(1, b"bus-%d" % k)) + number(4, stamp))


def vehicle(k, stamp):
    where = four(1, 47 + k % 100 / 100) + four(2, 8 + k % 70 / 100)
    named = run(1, b"bus-%d" % k) + run(2, b"%d Main Station" % (k % 40))
    return run(4, run(1, trip(k)) + run(2, where) + number(3, k % 30) + number(4, 2) + number(5, stamp)
               + run(7, b"stop-%d" % (k % 4000)) + run(8, named))


def alert(k, stamp):
    period = run(1, number(1, stamp) + number(2, stamp + 7200))
    about = run(5, run(2, b"R%d" % (k % 90))) + run(5, run(5, b"stop-%d" % (k % 4000)))
    said = run(1, run(1, b"No service between Main Station and Harbour, use tram 7") + run(2, b"en"))
    return run(5, period + about + number(6, 10) + number(7, 1) + run(10, said) + run(11, said))


def entity(k, stamp):
    kind = [vehicle, alert][k % 10] if k % 10 < 2 else trip_update
    return run(2, run(1, b"e%d" % k) + kind(k, stamp))


def offer(out, payload):
    out.write(b"M a %d\n%s\n" % (len(payload), payload))


def messages(out, count, entities, incrementality, ids=50000, stride=997):
    for m in range(1, count + 1):
        stamp = 1743285600 + m
        chosen = ((m * 7919 + k * stride) % ids for k in range(entities))
        offer(out, header(stamp, incrementality) + b"".join(entity(k, stamp) for k in chosen))


def main():
    out = sys.stdout.buffer
    words = sys.argv[1:]
    out.write(b"F a\n")
    if words[0] == "passed":
        with open(words[1], "rb") as script:
            offer(out, script.read())
    elif words[0] == "over":
        count, entities, ids = map(int, words[1:])
        stamp = 1743285600
        offer(out, header(stamp, 0) + b"".join(entity(k, stamp) for k in range(ids)))
        # By the golden section the ids of a message are spread over the table, however many there are.
        messages(out, count, entities, 1, ids, ids * 618 // 1000 | 1)
    else:
        if words[0] == "stale":
            offer(out, header(253402300799, 1))
            words = words[1:]
        messages(out, int(words[1]), int(words[2]), {"small": 1, "full": 0}[words[0]])
    out.write(b"E\n")


if __name__ == "__main__":
    main()
