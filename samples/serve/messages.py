"""What a GTFS Realtime message says of itself, for the scripts that hand messages on, keep them or judge them. Each
function raises ValueError where the bytes are no message."""
from wire import fields

HEADER, ENTITY = 1, 2  # of a FeedMessage
INCREMENTALITY, TIMESTAMP = 2, 3  # of a FeedHeader
ID, DELETED, TRIP_UPDATE, VEHICLE, ALERT = 1, 2, 3, 4, 5  # of a FeedEntity
DIFFERENTIAL = 1


def last(data, field, absent=None):
    """The last value of a field, which is the one that counts."""
    for number, value, _ in fields(data):
        if number == field:
            absent = value
    return absent


def every(data, field):
    """The values of a field that may come several times."""
    return [value for number, value, _ in fields(data) if number == field]


def text(data, field):
    """A text, empty where it is absent."""
    return last(data, field, b"").decode()


def stamp_and_kind(payload):
    """The stamp of a message, 0 where it has none, and whether it is a whole data set: that is what it is where it doesn't
    say that it is differential (GTFS Realtime, FeedHeader)."""
    header = b"".join(every(payload, HEADER))
    return last(header, TIMESTAMP, 0), last(header, INCREMENTALITY, 0) != DIFFERENTIAL


def entities(payload):
    """The entities of a message, each with its id."""
    for entity in every(payload, ENTITY):
        yield last(entity, ID, b""), entity
