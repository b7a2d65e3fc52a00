#!/usr/bin/env python3
"""Sends link state to a running rcpd, as a monitor of an OSPF area would:

    ospf.py ADDRESS:PORT ROUTER-ROUTER=COST..

It writes one Link State Update to the TCP stream, with the router LSA of each router that is named. A router's LSA has all of its links, so name
all of them at each call; a link has the cost in both directions. The sequence numbers are made from the time: a later call replaces an earlier one.
"""
import socket
import struct
import sys
import time


def octets(address):
    return socket.inet_aton(address)


def with_checksum(lsa):
    """The LSA with the Fletcher checksum of all of it but the age (RFC 2328 section 12.1.7), in its octets 16 and 17."""
    place, rest = 14, lsa[2:]
    low = high = 0
    for octet in rest:
        low = (low + octet) % 255
        high = (high + low) % 255
    first = ((len(rest) - place - 1) * low - high) % 255 or 255
    second = (-low - first) % 255 or 255
    return lsa[:16] + bytes([first, second]) + lsa[18:]


def router_lsa(router, links, sequence):
    """A router LSA with a point-to-point link to each neighbour (RFC 2328 section A.4.2)."""
    body = struct.pack(">HH", 0, len(links))
    for neighbour, cost in sorted(links.items()):
        body += octets(neighbour) + bytes(4) + struct.pack(">BBH", 1, 0, cost)
    header = struct.pack(">HBB", 1, 2, 1) + octets(router) * 2 + struct.pack(">IHH", sequence, 0, 20 + len(body))
    return with_checksum(header + body)


def update(lsas, sender="10.255.0.2", area="0.0.0.0"):
    """A Link State Update (RFC 2328 section A.3.5)."""
    body = struct.pack(">I", len(lsas)) + b"".join(lsas)
    return struct.pack(">BBH", 2, 4, 24 + len(body)) + octets(sender) + octets(area) + bytes(12) + body


def main(place, words):
    routers = {}
    for word in words:
        ends, cost = word.split("=")
        one, other = ends.split("-")
        routers.setdefault(one, {})[other] = int(cost)
        routers.setdefault(other, {})[one] = int(cost)
    sequence = 0x80000001 + int(time.time())
    packet = update([router_lsa(router, links, sequence) for router, links in sorted(routers.items())])
    host, port = place.split(":")
    with socket.create_connection((host, int(port))) as stream:
        stream.sendall(packet)


main(sys.argv[1], sys.argv[2:])
