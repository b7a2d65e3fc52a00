#!/usr/bin/env python3
"""random_feeds.py RCPFEED COUNT SEED: shows and writes random feeds with the built program.

Whole feeds, feeds with octets changed, put in or cut off, and octets that are no feed: each must come back as it was.
"""

import random
import struct
import subprocess
import sys

from feeds import attribute, message, record

draws = random.Random(int(sys.argv[3]))


def octets(count):
    return bytes(draws.randrange(256) for _ in range(count))


def prefixes(count):
    lengths = [draws.randrange(33) for _ in range(count)]
    return b"".join(bytes([n]) + octets((n + 7) // 8) for n in lengths)


def update():
    withdrawn = prefixes(draws.choice([0, 0, 1, 3]))
    attributes = b""
    if draws.random() < 0.9:
        segments = b"".join(
            bytes([draws.choice([1, 2, 2, 2, 3]), n]) + octets(2 * n)
            for n in (draws.randrange(1, 5) for _ in range(draws.randrange(3)))
        )
        attributes += attribute(0x40, 1, octets(1)) + attribute(0x40, 2, segments) + attribute(0x40, 3, octets(4))
        attributes += attribute(draws.choice([0x40, 0x80, 0xC0]), draws.randrange(256), octets(draws.randrange(200)))
    sections = b"".join(struct.pack(">H", len(part)) + part for part in (withdrawn, attributes))
    return message(2, sections + prefixes(draws.choice([0, 1, 1, 5, 50])))


def any_message():
    return draws.choice(
        [
            update,
            lambda: message(1, b"\x04" + octets(8) + bytes([n := draws.randrange(9)]) + octets(n)),
            lambda: message(3, octets(draws.randrange(2, 9))),
            lambda: message(4, b""),
            lambda: message(draws.randrange(9), octets(2)),
        ]
    )()


def any_record():
    kind = draws.choice("BBBBLETWDZUXSQ?")
    if kind == "B":
        return record("B", draws.randrange(5), b"".join(any_message() for _ in range(draws.randrange(4))))
    return record(kind, draws.choice([0, 0, 7]), octets(draws.choice([0, 0, 3, 4, 6, 8, 24])))


def feed():
    roster = b"as 65000\nid 10.0.0.254\n# caf\xc3\xa9 \\ \nshards 2" + draws.choice([b"", b"\n", b" \n"])
    return record("C", 0, roster) + b"".join(any_record() for _ in range(draws.randrange(1, 15)))


def changed(whole):
    way = draws.randrange(5)
    place = draws.randrange(len(whole) + 1)
    if way == 0:
        return whole
    if way == 1:
        return whole[:place]
    if way == 2:
        return whole[:place] + octets(draws.randrange(20)) + whole[place:]
    if way == 3:
        return octets(draws.randrange(200))
    return whole[:place] + octets(1) + whole[place + 1 :]


def run(task, given):
    done = subprocess.run([sys.argv[1], task], input=given, capture_output=True)
    return done.returncode, done.stdout


differ = 0
for _ in range(int(sys.argv[2])):
    given = changed(feed())
    shown = run("show", given)
    if shown[0] != 0 or run("write", shown[1]) != (0, given):
        differ += 1
        print("differs:", given.hex())
print(f"{sys.argv[2]} feeds of seed {sys.argv[3]}: {differ} differ")
sys.exit(differ > 0)
