"""The bytes of a few kinds of Protocol Buffers fields, for the scripts that make messages, and the fields of bytes, for
those that look into them."""


def varint(n):
    n %= 1 << 64
    out = bytearray()
    while n >= 128:
        out.append(n % 128 + 128)
        n //= 128
    out.append(n)
    return bytes(out)


def number(field, value):
    return varint(field * 8) + varint(value)


def run(field, payload):
    return varint(field * 8 + 2) + varint(len(payload)) + payload


def read_varint(data, at):
    """The number that begins there, and where it ends."""
    value = shift = 0
    while at < len(data) and shift < 70:
        byte = data[at]
        value |= (byte & 127) << shift
        at += 1
        if byte < 128:
            return value, at
        shift += 7
    raise ValueError("the bytes end within a number")


def fields(data):
    """The fields of a message in their order: the number, the value and the bytes of each. A value is a number, the bytes
    of a text or a message, or those of what has a fixed length. ValueError where the bytes are no fields."""
    at = 0
    while at < len(data):
        begin = at
        tag, at = read_varint(data, at)
        field, kind = tag >> 3, tag & 7
        if kind == 0:
            value, at = read_varint(data, at)
        elif kind in (1, 2, 5):
            length, at = read_varint(data, at) if kind == 2 else ({1: 8, 5: 4}[kind], at)
            value, at = data[at:at + length], at + length
        else:
            raise ValueError(f"a field of kind {kind}")  # groups, which GTFS Realtime has none of
        if at > len(data):
            raise ValueError("the bytes end within a field")
        yield field, value, data[begin:at]
