#!/usr/bin/env python3
"""BGP speakers that load a running rcpd and time it.

    speakers.py roster CLIENTS SHARDS > ROSTER
    speakers.py load ADDRESS:PORT CLIENTS PREFIXES ROUNDS PID
    speakers.py edges ADDRESS:PORT CLIENTS PREFIXES SECONDS
    speakers.py restarts ADDRESS:PORT CLIENTS PREFIXES TURNS SEED

`roster` writes the roster of a ring of routers. The others open one session for each router of it, and announce PREFIXES prefixes in equal parts, 50
to an UPDATE with attributes of their own.

`load` prints how long it takes until each client has the prefixes of all others; what the daemon, which has this process id, takes of memory and, while
nothing is sent, of a processor; after how long the last client has one announcement on a quiet mesh, in so many rounds; and how long a session that is
closed and opened again takes until it has all prefixes. It uses CLIENTS + 1 of the daemon's sessions.

`edges` prints what the others see while one client is killed in the middle of a message, and while another reads nothing for so many seconds although all
prefixes change again and again.

`restarts` closes, resets and opens sessions and changes announcements at random, in so many turns, and then prints after how long each client had exactly the
last announcements of all others.
"""
import random
import select
import selectors
import socket
import struct
import sys
import time

AS = 65000
HOLD = 90
GROUP = 50
OPEN, UPDATE, NOTIFICATION, KEEPALIVE = 1, 2, 3, 4


def router(number):
    return bytes([10, 1, number // 250, number % 250 + 1])


def dotted(octets):
    return ".".join(map(str, octets))


def message(kind, body=b""):
    return b"\xff" * 16 + struct.pack(">HB", 19 + len(body), kind) + body


def prefix_octets(prefix):
    """A prefix of 24 bits (RFC 4271 section 4.3)."""
    return b"\x18" + struct.pack(">I", prefix << 8)[:3]


def update(number, prefixes, preference=100):
    """An UPDATE of the router: these prefixes of 24 bits by way of itself. The AS_PATH ends with the first prefix."""
    attributes = (
        bytes([0x40, 1, 1, 0])
        + bytes([0x40, 2, 6, 2, 2]) + struct.pack(">HH", 64601, prefixes[0] & 0x7FFF)
        + bytes([0x40, 3, 4]) + router(number)
        + bytes([0x40, 5, 4]) + struct.pack(">I", preference)
    )
    reach = b"".join(map(prefix_octets, prefixes))
    return message(UPDATE, struct.pack(">HH", 0, len(attributes)) + attributes + reach)


class Ended(Exception):
    """The daemon ended a session."""


class Speaker:
    """A router's session that is established. It counts the prefixes that are announced and withdrawn to it, and keeps the attributes of each if asked."""

    def __init__(self, place, number, table=None):
        self.number, self.pending, self.established = number, b"", False
        self.announced, self.withdrawn, self.table = 0, 0, table
        self.socket = socket.create_connection(place)
        self.socket.setsockopt(socket.IPPROTO_TCP, socket.TCP_NODELAY, 1)
        self.send(message(OPEN, struct.pack(">BHH", 4, AS, HOLD) + router(number) + b"\0") + message(KEEPALIVE))
        while not self.established:
            self.read()

    def send(self, octets):
        self.socket.sendall(octets)
        self.sent = time.monotonic()

    def read(self):
        """Reads what has come. A NOTIFICATION or an end is an error."""
        self.parse(self.socket.recv(1 << 18))

    def parse(self, octets):
        if not octets:
            raise Ended(f"{dotted(router(self.number))}: closed by the daemon")
        octets, at = self.pending + octets, 0
        while len(octets) - at >= 19 and (size := struct.unpack_from(">H", octets, at + 16)[0]) <= len(octets) - at:
            self.take(octets[at + 18], octets[at + 19 : at + size])
            at += size
        self.pending = octets[at:]

    def take(self, kind, body):
        if kind == NOTIFICATION:
            raise Ended(f"{dotted(router(self.number))}: NOTIFICATION {body[0]}/{body[1]}")
        if kind == KEEPALIVE:
            self.established = True
        if kind == UPDATE:
            gone = struct.unpack_from(">H", body)[0]
            start = 4 + gone + struct.unpack_from(">H", body, 2 + gone)[0]
            self.withdrawn += gone // 4
            self.announced += (len(body) - start) // 4
            if self.table is not None:
                for at in range(2, 2 + gone, 4):
                    self.table.pop(body[at : at + 4], None)
                for at in range(start, len(body), 4):
                    self.table[body[at : at + 4]] = body[4 + gone : start]


class Mesh:
    """Speakers that are read together."""

    def __init__(self, speakers):
        self.ready = selectors.DefaultSelector()
        self.speakers, self.looked = [], time.monotonic()
        for speaker in speakers:
            self.add(speaker)

    def add(self, speaker):
        self.speakers.append(speaker)
        self.ready.register(speaker.socket, selectors.EVENT_READ, speaker)

    def remove(self, speaker):
        self.speakers.remove(speaker)
        self.ready.unregister(speaker.socket)

    def turn(self, seconds):
        """Reads what comes within some seconds, and keeps the sessions alive. Returns the speakers that were read."""
        read = [key.data for key, _ in self.ready.select(seconds)]
        for speaker in read:
            speaker.read()
        if time.monotonic() > self.looked + 1:
            self.looked = time.monotonic()
            for speaker in self.speakers:
                if self.looked - speaker.sent > HOLD / 3:
                    speaker.send(message(KEEPALIVE))
        return read

    def rest(self, seconds):
        end = time.monotonic() + seconds
        while (left := end - time.monotonic()) > 0:
            self.turn(left)

    def wait(self, speakers, has, what, limit=120):
        """Reads until each of the speakers has what is wanted. Returns the milliseconds."""
        start = time.perf_counter()
        lacking = {speaker for speaker in speakers if not has(speaker)}
        while lacking:
            if time.perf_counter() - start > limit:
                raise SystemExit(f"after {limit} s {len(lacking)} clients lack {what}")
            lacking.difference_update([speaker for speaker in self.turn(1) if has(speaker)])
        return 1000 * (time.perf_counter() - start)


def parts(prefixes, clients):
    """The prefixes of each client, from 32.0.0.0/24 on."""
    return [range(0x200000 + prefixes * k // clients, 0x200000 + prefixes * (k + 1) // clients) for k in range(clients)]


def announce(speaker, prefixes, preference=100):
    for at in range(0, len(prefixes), GROUP):
        speaker.send(update(speaker.number, prefixes[at : at + GROUP], preference))


def fill(mesh, prefixes):
    """Has all clients announce their parts, and returns the milliseconds until each has the others' prefixes."""
    shares = parts(prefixes, len(mesh.speakers))
    start = time.perf_counter()
    for speaker, share in zip(mesh.speakers, shares):
        announce(speaker, share)
    mesh.wait(mesh.speakers, lambda speaker: speaker.announced >= prefixes - len(shares[speaker.number]), "prefixes")
    return 1000 * (time.perf_counter() - start), shares


def last_of_all(mesh, rounds, pause=0.02):
    """The milliseconds until the last of the other clients has one announcement of the first, in each round, in rising order.

    What comes is parsed after the time was taken: reading 60 sockets one after another is slow enough here."""
    first, others = mesh.speakers[0], {speaker.socket.fileno(): speaker for speaker in mesh.speakers[1:]}
    ready, times = select.epoll(), []
    for descriptor in others:
        ready.register(descriptor, select.EPOLLIN)
    for turn in range(rounds):
        mesh.rest(pause)
        for speaker in others.values():
            speaker.announced = 0
        octets, lacking = update(first.number, [0x300000 + turn]), set(others)
        start = time.perf_counter()
        first.send(octets)
        while lacking:
            came = []
            while lacking:
                for descriptor, _ in ready.poll():
                    came.append((others[descriptor], others[descriptor].socket.recv(1 << 16)))
                    lacking.discard(descriptor)
            end = time.perf_counter()
            for speaker, octets in came:
                speaker.parse(octets)
            lacking = {descriptor for descriptor, speaker in others.items() if not speaker.announced}
        times.append(1000 * (end - start))
    ready.close()
    return sorted(times)


def shown(times):
    return f"median {times[len(times) // 2]:.2f} ms, 99 of 100 within {times[len(times) * 99 // 100]:.2f} ms"


def processor_seconds(pid):
    fields = open(f"/proc/{pid}/stat").read().rsplit(")", 1)[1].split()
    return (int(fields[11]) + int(fields[12])) / 100


def peak_memory(pid):
    lines = open(f"/proc/{pid}/status").read().splitlines()
    return next(int(line.split()[1]) / 1024 for line in lines if line.startswith("VmHWM"))


def load(place, clients, prefixes, rounds, pid):
    mesh = Mesh([Speaker(place, number) for number in range(clients)])
    time_taken, shares = fill(mesh, prefixes)
    print(f"first fill: {time_taken:.0f} ms; peak memory {peak_memory(pid):.0f} MiB", flush=True)
    mesh.rest(2)
    before = processor_seconds(pid)
    mesh.rest(10)
    print(f"idle: {10 * (processor_seconds(pid) - before):.1f} % of a processor", flush=True)
    print(f"an announcement at the last client: {shown(last_of_all(mesh, rounds))}", flush=True)
    again = mesh.speakers[1]
    mesh.remove(again)
    again.socket.close()
    mesh.rest(1)
    start = time.perf_counter()
    again = Speaker(place, 1)
    mesh.add(again)
    mesh.wait([again], lambda speaker: speaker.announced >= prefixes - len(shares[1]), "prefixes")
    print(f"restart of a session: {1000 * (time.perf_counter() - start):.0f} ms; peak memory {peak_memory(pid):.0f} MiB", flush=True)


def kill(mesh, victim, prefixes):
    """Resets a session in the middle of a message. Returns the milliseconds until all others lost its prefixes."""
    mesh.remove(victim)
    for speaker in mesh.speakers:
        speaker.withdrawn = 0
    victim.send(message(UPDATE, bytes(100))[:40])
    victim.socket.setsockopt(socket.SOL_SOCKET, socket.SO_LINGER, struct.pack("ii", 1, 0))
    victim.socket.close()
    return mesh.wait(mesh.speakers, lambda speaker: speaker.withdrawn >= prefixes, "withdrawals")


def stall(mesh, stalled, shares, seconds):
    """Has one client read nothing for so long, while the prefixes of all others change again and again.

    Returns how often they changed, the longest time in milliseconds until the others had a change, and how long the client took afterwards until it had the
    last one of each prefix."""
    mesh.remove(stalled)
    end, times, turn = time.monotonic() + seconds, [], 0
    while time.monotonic() < end:
        turn += 1
        for speaker in mesh.speakers:
            speaker.announced = 0
        all_prefixes = sum(len(shares[speaker.number]) for speaker in mesh.speakers)
        for speaker in mesh.speakers:
            announce(speaker, shares[speaker.number], 100 + turn)
        times.append(mesh.wait(mesh.speakers, lambda speaker: speaker.announced >= all_prefixes - len(shares[speaker.number]), "changes"))
        if time.monotonic() - stalled.sent > HOLD / 3:
            stalled.send(message(KEEPALIVE))
    stalled.table, last = {}, struct.pack(">I", 100 + turn)
    start = time.perf_counter()
    mesh.add(stalled)
    mesh.wait([stalled], lambda speaker: sum(attributes[-4:] == last for attributes in speaker.table.values()) >= all_prefixes, "changes")
    return turn, max(times), 1000 * (time.perf_counter() - start)


def edges(place, clients, prefixes, seconds):
    mesh = Mesh([Speaker(place, number) for number in range(clients)])
    _, shares = fill(mesh, prefixes)
    victim = mesh.speakers[1]
    print(f"a killed client: the others lost its prefixes after {kill(mesh, victim, len(shares[1])):.0f} ms", flush=True)
    print(f"then an announcement at the last client: {shown(last_of_all(mesh, 100))}", flush=True)
    turns, longest, after = stall(mesh, mesh.speakers[1], shares, seconds)
    print(f"a client that read nothing for {seconds} s: all prefixes changed {turns} times, and the others had each change within {longest:.0f} ms", flush=True)
    print(f"then it read again, and had the last change of each prefix after {after:.0f} ms", flush=True)


def reopened(mesh, place, speaker):
    """A new session of the speaker's router, once the daemon has seen the end of the one before: until then it answers with a Cease."""
    mesh.remove(speaker)
    if random.random() < 0.5:
        speaker.socket.setsockopt(socket.SOL_SOCKET, socket.SO_LINGER, struct.pack("ii", 1, 0))
    speaker.socket.close()
    while True:
        try:
            again = Speaker(place, speaker.number, {})
        except (Ended, ConnectionResetError):
            mesh.rest(0.05)
        else:
            mesh.add(again)
            return again


def restarts(place, clients, prefixes, turns, seed):
    random.seed(seed)
    mesh = Mesh([Speaker(place, number, {}) for number in range(clients)])
    _, shares = fill(mesh, prefixes)
    preferences, count = [100] * clients, 0
    for _ in range(turns):
        mesh.rest(random.choice([0, 0, 0.05]))
        speaker = random.choice(mesh.speakers)
        if random.random() < 0.5:
            speaker, count = reopened(mesh, place, speaker), count + 1
        preferences[speaker.number] = random.randint(100, 999)
        announce(speaker, shares[speaker.number], preferences[speaker.number])

    def has_all(speaker):
        others = [number for number in range(clients) if number != speaker.number]
        wanted = {prefix_octets(prefix): preferences[number] for number in others for prefix in shares[number]}
        return {prefix: struct.unpack(">I", attributes[-4:])[0] for prefix, attributes in speaker.table.items()} == wanted

    print(f"after {count} restarts in {turns} turns all clients had exactly the last routes within {mesh.wait(mesh.speakers, has_all, 'the last routes'):.0f} ms")


def ring(clients, shards):
    print(f"as {AS}\nid 10.255.0.1\nshards {shards}\nhold {HOLD}\narea 0.0.0.0")
    for number in range(clients):
        print(f"router {dotted(router(number))} {dotted(router(number))}")
    for number in range(clients):
        print(f"link {dotted(router(number))} {dotted(router((number + 1) % clients))} 10")


def main(command, *words):
    if command == "roster":
        ring(*map(int, words))
    else:
        host, port = words[0].split(":")
        {"load": load, "edges": edges, "restarts": restarts}[command]((host, int(port)), *map(int, words[1:]))


main(*sys.argv[1:])
