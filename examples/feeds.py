#!/usr/bin/env python3
"""Writes feeds to measure `rcp replay` with, to standard output.

    feeds.py generated N    400 routers, 900 links, 20,000 prefixes with three announcers each, drawn from the number N
    feeds.py changes N      400 routers and 20,000 prefixes, and then N times one announcement and one D
    feeds.py own N          N prefixes of their own, announced by one router to another
    feeds.py updates N      N B records of one UPDATE each
    feeds.py wide N         N UPDATEs of 480 withdrawn and 480 announced prefixes each
"""

import struct
import sys

MARKER = b"\xff" * 16


def record(kind, source, body=b""):
    return kind.encode() + struct.pack(">II", source, len(body)) + body


def message(kind, body):
    return MARKER + struct.pack(">HB", 19 + len(body), kind) + body


def attribute(flags, kind, value):
    return bytes([flags, kind, len(value)]) + value


def attributes(path, next_hop, med, preference, community=None):
    octets = attribute(0x40, 1, b"\0")
    octets += attribute(0x40, 2, bytes([2, len(path)]) + b"".join(struct.pack(">H", n) for n in path))
    octets += attribute(0x40, 3, struct.pack(">I", next_hop))
    if med is not None:
        octets += attribute(0x80, 4, struct.pack(">I", med))
    octets += attribute(0x40, 5, struct.pack(">I", preference))
    if community is not None:
        octets += attribute(0xC0, 8, struct.pack(">HH", 0xFDE8, community))
    return octets


def prefix(address, length=24):
    return bytes([length]) + struct.pack(">I", address)[: (length + 7) // 8]


def update(withdrawn, attrs, announced):
    gone = b"".join(withdrawn)
    body = struct.pack(">H", len(gone)) + gone + struct.pack(">H", len(attrs)) + attrs + b"".join(announced)
    return message(2, body)


def dotted(address):
    return ".".join(str(octet) for octet in struct.pack(">I", address))


def router(place):
    return 0x0A000000 + place + 1


def roster(count, shards, identifier="10.255.255.254", links=()):
    lines = ["as 65000", "id " + identifier, "shards %d" % shards, "hold 90", "area 0.0.0.0"]
    lines += ["router %s %s" % (dotted(router(i)), dotted(router(i))) for i in range(count)]
    lines += ["link %s %s %d" % (dotted(router(a)), dotted(router(b)), cost) for a, b, cost in links]
    return ("\n".join(lines) + "\n").encode()


def checksum(octets):
    """The two octets at 14 and 15 of the octets after the age, each from 1 to 255, that make the sums 0 modulo 255."""
    c0 = c1 = 0
    for octet in octets:
        c0 = (c0 + octet) % 255
        c1 = (c1 + c0) % 255
    x = ((len(octets) - 15) * c0 - c1) % 255 or 255
    y = (c1 - (len(octets) - 14) * c0) % 255 or 255
    return bytes([x, y])


def lsa(place, sequence, links):
    """A router LSA of age 1 with point-to-point links: pairs of a router's place and a metric."""
    name = struct.pack(">I", router(place))
    body = struct.pack(">BBH", 0, 0, len(links))
    for other, metric in links:
        body += struct.pack(">IIBBH", router(other), 0, 1, 0, metric)
    head = bytes([2, 1]) + name + name + struct.pack(">I", sequence)
    length = struct.pack(">H", 2 + len(head) + 4 + len(body))
    found = checksum(head + b"\0\0" + length + body)
    return b"\0\1" + head + found + length + body


def packet(lsas):
    body = struct.pack(">I", len(lsas)) + b"".join(lsas)
    return struct.pack(">BBHII", 2, 4, 24 + len(body), 0x0AFF0001, 0) + bytes(12) + body


class Draws:
    def __init__(self, number):
        self.state = number

    def draw(self, limit):
        self.state = (self.state * 6364136223846793005 + 1442695040888963407) % 2**64
        return (self.state >> 32) % limit


def generated(number, out):
    draws = Draws(number)
    links = [[i, (i + 1) % 400, 1 + draws.draw(100)] for i in range(400)]
    for _ in range(500):
        i = draws.draw(400)
        j = (i + 1 + draws.draw(399)) % 400
        links.append([i, j, 1 + draws.draw(100)])
    out.write(record("C", 0, roster(400, 8)))
    for i in range(400):
        opening = struct.pack(">BHHI", 4, 65000, 90, router(i)) + bytes([8, 2, 6, 1, 4, 0, 1, 0, 1])
        out.write(record("U", i + 1))
        out.write(record("B", i + 1, message(1, opening)))
        out.write(record("B", i + 1, message(4, b"")))
    sequences = [0x80000001] * 400

    def of(place):
        listed = [(b if a == place else a, cost) for a, b, cost in links if place in (a, b)]
        return lsa(place, sequences[place], listed)

    for k in range(10):
        out.write(record("L", 0, packet([of(i) for i in range(40 * k, 40 * k + 40)])))
    for g in range(400):
        a0 = draws.draw(400)
        a1 = (a0 + 100 + draws.draw(100)) % 400
        a2 = (a0 + 250 + draws.draw(100)) % 400
        for a in (a0, a1, a2):
            neighbour = 64601 + draws.draw(8)
            preference = 100 + 10 * draws.draw(2)
            med = draws.draw(4)
            second = 64700 + draws.draw(100)
            third = 64800 + draws.draw(100)
            attrs = attributes([neighbour, second, third], router(a), med, preference, g)
            announced = [prefix(0x10000000 + (50 * g + k) * 256) for k in range(50)]
            out.write(record("B", a + 1, update([], attrs, announced)))
    for shard in range(8):
        for _ in range(4):
            out.write(record("W", 0, struct.pack(">HI", shard, 500)))
    out.write(record("D", 0))
    for _ in range(10):
        link = links[draws.draw(900)]
        link[2] = 1 + draws.draw(100)
        for place in link[:2]:
            sequences[place] += 1
        out.write(record("L", 0, packet([of(link[0]), of(link[1])])))
    out.write(record("D", 0))
    for number in (1, 2, 3):
        out.write(record("X", number))
    out.write(record("D", 0))
    out.write(record("Z", 0))


def established(count, out):
    for i in range(count):
        out.write(record("E", i + 1, struct.pack(">I", router(i))))


def changes(count, out):
    """Router 0 announces 20,000 prefixes in groups of 50; then it announces one anew, each time with another preference."""
    ring = [(i, (i + 1) % 400, 10) for i in range(400)]
    out.write(record("C", 0, roster(400, 8, links=ring)))
    established(400, out)
    for g in range(400):
        attrs = attributes([64601, 64700, 64800], router(0), 0, 100, g)
        out.write(record("B", 1, update([], attrs, [prefix(0x10000000 + (50 * g + k) * 256) for k in range(50)])))
    out.write(record("D", 0))
    for i in range(count):
        attrs = attributes([64601, 64700, 64800], router(0), 0, 101 + i // 20000, 0)
        out.write(record("B", 1, update([], attrs, [prefix(0x10000000 + (i % 20000) * 256)])))
        out.write(record("D", 0))
    out.write(record("Z", 0))


def own(count, out):
    out.write(record("C", 0, roster(2, 8, links=[(0, 1, 10)])))
    established(2, out)
    for i in range(count):
        attrs = attributes([64601], router(0), 0, 100 + i, None)
        out.write(record("B", 1, update([], attrs, [prefix(0x10000000 + i * 256)])))
    out.write(record("D", 0))
    out.write(record("Z", 0))


def updates(count, out):
    out.write(record("C", 0, roster(2, 8, links=[(0, 1, 10)])))
    established(2, out)
    attrs = [attributes([64601], router(0), 0, 100 + i, None) for i in range(2)]
    one = [record("B", 1, update([], attrs[i], [prefix(0x10000000)])) for i in range(2)]
    for i in range(count):
        out.write(one[i % 2])
    out.write(record("Z", 0))


def wide(count, out):
    out.write(record("C", 0, roster(2, 8, links=[(0, 1, 10)])))
    established(2, out)
    attrs = attributes([64601], router(0), 0, 100, None)
    for i in range(count):
        first = [prefix(0x10000000 + k * 256) for k in range(480)]
        second = [prefix(0x10000000 + (480 + k) * 256) for k in range(480)]
        gone, come = (first, second) if i % 2 else (second, first)
        out.write(record("B", 1, update(gone, attrs, come)))
    out.write(record("Z", 0))


FEEDS = {"generated": generated, "changes": changes, "own": own, "updates": updates, "wide": wide}

if __name__ == "__main__":
    if len(sys.argv) != 3 or sys.argv[1] not in FEEDS:
        sys.exit(__doc__)
    FEEDS[sys.argv[1]](int(sys.argv[2]), sys.stdout.buffer)
