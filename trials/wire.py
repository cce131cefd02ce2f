"""The messages of docs/formats.md as datagrams: legal ones of every kind, and a client's replies."""

import struct
from collections import namedtuple

HEAD = b"FABW\x01"
CLIENT, CLIENT_REPLY = 64, 65

READ_BLOCK, WRITE_BLOCK, READ_STRIPE, WRITE_STRIPE = range(4)

Reply = namedtuple("Reply", "id word detail data")

REFUSALS = {16: "nostripe", 17: "noblock", 18: "length", 19: "busy", 20: "spent"}


def client(number, group, stripe, op, block=0, data=b""):
    """A client's invocation; `op` is one of the four numbers above."""
    fields = struct.pack(">QIIBBI", number, group, stripe, op, block, len(data))
    return HEAD + bytes([CLIENT]) + fields + data


def stamp_text(view, time, brick, boot):
    return f"{view}.{time}.{brick}.{boot}"


def reply(datagram):
    """The reply that a datagram is to a client, or None where it is no such message."""
    if len(datagram) < 15 or datagram[:6] != HEAD + bytes([CLIENT_REPLY]):
        return None
    number, status = struct.unpack(">QB", datagram[6:15])
    rest = datagram[15:]
    if status == 0 and len(rest) >= 4:
        (length,) = struct.unpack(">I", rest[:4])
        return Reply(number, "data", "", rest[4:]) if len(rest) == 4 + length else None
    if status == 1:
        return Reply(number, "done", "", b"") if not rest else None
    if status == 2 and len(rest) == 20:
        brick, *stamp = struct.unpack(">HIQHI", rest)
        return Reply(number, "aborted", f"later {brick} {stamp_text(*stamp)}", b"")
    if status == 3 and len(rest) == 2:
        return Reply(number, "aborted", "gone %d" % struct.unpack(">H", rest), b"")
    if status == 4 and len(rest) == 6:
        return Reply(number, "aborted", "full %d %d" % struct.unpack(">HI", rest), b"")
    if status == 5 and len(rest) == 6:
        return Reply(number, "aborted", "moved %d %d" % struct.unpack(">HI", rest), b"")
    if status in REFUSALS and not rest:
        return Reply(number, "refused", REFUSALS[status], b"")
    return None


def invocation(datagram):
    """What a legal invocation asks: (number, group, stripe, op, block, data); None for any other datagram."""
    if len(datagram) < 28 or datagram[:6] != HEAD + bytes([CLIENT]):
        return None
    number, group, stripe, op, block, length = struct.unpack(">QIIBBI", datagram[6:28])
    if op > 3 or length > 32768 or len(datagram) != 28 + length:
        return None
    return number, group, stripe, op, block, datagram[28:]


def _call(random):
    """A call: boot, sequence, phase, group, view and stripe."""
    return struct.pack(">IQIIII", 1, random.randint(1, 9), random.randint(1, 4), 0, 1, random.randint(0, 4))


def _stamp(random):
    return struct.pack(">IQHI", 1, random.randint(0, 1 << 62), random.randint(0, 3), 1)


def _ballot(random):
    return struct.pack(">IHI", random.randint(0, 9), random.randint(0, 3), 1)


def _bytes(random):
    text = random.randbytes(random.choice([0, 1, 16, 16, 16, 17, 4096]))
    return struct.pack(">H", len(text)) + text


def _members(random):
    return bytes([3]) + struct.pack(">HHH", 0, 1, 2)


def _option(random, *fields):
    if random.random() < 0.5:
        return b"\0"
    return b"\1" + b"".join(field(random) for field in fields)


def _numbers(form, *high):
    return lambda random: struct.pack(form, *(random.randint(0, top) for top in high))


def _maybe(*fields):
    return lambda random: _option(random, *fields)


WANT = lambda random: bytes([random.choice([0, 1, 2, 255])])
GROUP_VIEW = _numbers(">II", 0, 2)

# The fields of each kind of message between bricks, in order.
KINDS = {
    1: (_call, WANT),
    2: (_call, _stamp),
    3: (_call, _stamp, _numbers(">B", 1), _stamp, WANT),
    4: (_call, _stamp, _bytes),
    5: (_call, _stamp, _stamp, _numbers(">B", 15), _bytes),
    6: (_call, _stamp),
    7: (_call, _maybe(_stamp)),
    8: (_call, _ballot),
    9: (_call, _ballot, _members),
    10: (GROUP_VIEW, _members, _members),
    11: (GROUP_VIEW,),
    32: (_call, _stamp, _maybe(_stamp, _bytes)),
    33: (_call,),
    34: (_call, _maybe(_stamp, _bytes)),
    35: (_call,),
    36: (_call, _maybe(_stamp)),
    37: (_call, _stamp),
    38: (_call, _numbers(">I", 100)),
    39: (_call, _numbers(">I", 3), _maybe(_members, _members)),
    40: (_call, _maybe(_stamp, _bytes)),
    41: (_call,),
    42: (_call, _maybe(_ballot, _members)),
    43: (_call,),
    44: (_call, _ballot),
    45: (_call,),
}


def between_bricks(random):
    """A legal message of a kind that bricks send each other."""
    kind = random.choice(list(KINDS))
    return HEAD + bytes([kind]) + b"".join(field(random) for field in KINDS[kind])
