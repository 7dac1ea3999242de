#!/usr/bin/python3
"""Takes what each side of a connection sent out of a capture of tcpdump, as pgtrace lists it.

    pcap.py CAPTURE                                          prints the connections, with their numbers
    pcap.py CAPTURE --connection N --recording FILE          writes a recording of one (docs/PGTRACE.md), which `pgtrace session` lists
    pcap.py CAPTURE --connection N CLIENT-FILE SERVER-FILE   writes the bytes of each of its sides

Reads pcap and pcapng, IPv4 and IPv6. Segments that come out of order or again are put in their place; where one is missing, its side ends there, and
the status is 1. Fragments of IP packets aren't joined. Needs dpkt (on Debian: apt-get install python3-dpkt).

    tcpdump -i any -s 0 -w all.pcap tcp port 5432
    pcap.py all.pcap --connection 1 --recording r && pgtrace session < r
"""
import argparse
import socket
import struct
import sys

import dpkt

NULL, ETHERNET, LOOP, COOKED, COOKED2 = 0, 1, 108, 113, 276
RAW = (12, 14, 101, 228, 229)


class Side:
    """What one side of a connection sent: its segments, each with its place in the stream."""

    def __init__(self):
        self.next = None  # the sequence number that the highest place stands for
        self.high = 0
        self.first = None
        self.segments = []

    def add(self, segment, when):
        number = segment.seq + bool(segment.flags & dpkt.tcp.TH_SYN)
        if self.next is None:
            self.next = number
        # a sequence number is one of 32 bits, and near the highest that came
        ahead = (number - self.next + 2**31) % 2**32 - 2**31
        place = self.high + ahead
        if segment.flags & dpkt.tcp.TH_SYN:
            self.first = place
        if segment.data:
            self.segments.append((place, when, segment.data))
        end = place + len(segment.data)
        if end > self.high:
            self.next, self.high = (number + len(segment.data)) % 2**32, end

    def stream(self):
        """The bytes up to the first that is missing, how many bytes came after that, and when each piece of them was whole with all before it."""
        segments = sorted(self.segments, key=lambda it: it[:2])
        at = self.first if self.first is not None else segments[0][0] if segments else 0
        found, times, latest = bytearray(), [], 0
        for place, when, data in segments:
            if place > at:
                return bytes(found), self.high - at, times
            piece, latest = data[at - place :], max(latest, when)
            if piece:
                found += piece
                at += len(piece)
                times.append((latest, len(piece)))
        return bytes(found), 0, times


class Connection:
    def __init__(self, client, server):
        self.ends = client, server
        self.sides = {client: Side(), server: Side()}
        self.opened = None  # the sequence number that opened it
        self.is_closed = False

    def __str__(self):
        client, server = (f"[{host}]:{port}" if ":" in host else f"{host}:{port}" for host, port in self.ends)
        sizes = [len(self.sides[end].stream()[0]) for end in self.ends]
        return f"{client} > {server}, {sizes[0]} and {sizes[1]} bytes"


def network(link, data):
    """The IP packet inside a frame, if there is one."""
    if link == ETHERNET:
        inner = dpkt.ethernet.Ethernet(data).data
    elif link == COOKED:
        inner = dpkt.sll.SLL(data).data
    elif link == COOKED2:
        inner = dpkt.sll2.SLL2(data).data
    else:
        body = data[4:] if link in (NULL, LOOP) else data
        inner = dpkt.ip6.IP6(body) if body[:1] and body[0] >> 4 == 6 else dpkt.ip.IP(body)
    return inner if isinstance(inner, (dpkt.ip.IP, dpkt.ip6.IP6)) else None


def segments(capture):
    """Each TCP segment with where it comes from and goes to, in the capture's order."""
    reader = dpkt.pcap.UniversalReader(capture)
    link = reader.datalink()
    if link not in (NULL, ETHERNET, LOOP, COOKED, COOKED2, *RAW):
        sys.exit(f"pcap.py: the capture has frames of an unknown kind, {link}")
    for when, data in reader:
        try:
            packet = network(link, data)
        except (dpkt.UnpackError, IndexError):
            continue
        if packet is None or not isinstance(packet.data, dpkt.tcp.TCP):
            continue
        family = socket.AF_INET6 if isinstance(packet, dpkt.ip6.IP6) else socket.AF_INET
        hosts = (socket.inet_ntop(family, address) for address in (packet.src, packet.dst))
        yield *zip(hosts, (packet.data.sport, packet.data.dport)), packet.data, when


def connections(capture, port):
    """The connections in the order in which they begin. The client is who opened one; of one that is open already, who isn't at the server's port."""
    found, open_ones = [], {}
    for source, target, segment, when in segments(capture):
        flags = segment.flags & (dpkt.tcp.TH_SYN | dpkt.tcp.TH_ACK)
        opens = flags == dpkt.tcp.TH_SYN
        key = frozenset((source, target))
        one = open_ones.get(key)
        if one is None or opens and one.opened != segment.seq and (one.opened is not None or one.is_closed):
            answers = flags == dpkt.tcp.TH_SYN | dpkt.tcp.TH_ACK or source[1] == port
            one = open_ones[key] = Connection(*((target, source) if answers else (source, target)))
            found.append(one)
        if opens:
            one.ends, one.opened = (source, target), segment.seq
        one.is_closed |= bool(segment.flags & (dpkt.tcp.TH_FIN | dpkt.tcp.TH_RST))
        one.sides[source].add(segment, when)
    return found


def streams(one):
    """The bytes of both sides, when their pieces came, and whether none are missing."""
    found, pieces, is_whole = [], [], True
    for end, who, arrow in zip(one.ends, ("client", "server"), "><"):
        stream, missing, times = one.sides[end].stream()
        found.append(stream)
        pieces += [(when, arrow, length) for when, length in times]
        if missing:
            print(f"pcap.py: the {who}'s byte {len(stream)} is missing, and what comes after it is left out", file=sys.stderr)
            is_whole = False
    return found, pieces, is_whole


def write_recording(one, name):
    (client, server), pieces, is_whole = streams(one)
    rest = {">": client, "<": server}
    with open(name, "wb") as file:
        file.write(b"pgtrace recording 1\n")
        for when, arrow, length in sorted(pieces, key=lambda it: it[0]):
            file.write(arrow.encode() + struct.pack(">QI", round(when * 1000000), length) + rest[arrow][:length])
            rest[arrow] = rest[arrow][length:]
    return 0 if is_whole else 1


def write_sides(one, names):
    found, _, is_whole = streams(one)
    for name, stream in zip(names, found):
        with open(name, "wb") as file:
            file.write(stream)
    return 0 if is_whole else 1


def main():
    words = argparse.ArgumentParser(description="Takes what each side of a PostgreSQL connection sent out of a capture of tcpdump.")
    words.add_argument("capture")
    words.add_argument("--connection", type=int, metavar="N", help="the number of the connection")
    words.add_argument("--port", type=int, default=5432, help="the server's port, for connections that are open when the capture begins")
    words.add_argument("--recording", metavar="FILE", help="a file for the bytes of both, with the times at which they came")
    words.add_argument("files", nargs="*", metavar="FILE", help="a file for the client's bytes, and one for the server's")
    given = words.parse_intermixed_args()
    with open(given.capture, "rb") as capture:
        found = connections(capture, given.port)
    if given.connection is None:
        print(*(f"{number} {one}" for number, one in enumerate(found, start=1)), sep="\n")
        return 0
    if not 1 <= given.connection <= len(found) or len(given.files) != (0 if given.recording else 2):
        words.error(f"the capture has {len(found)} connections, and a recording is wanted, or two files")
    if given.recording:
        return write_recording(found[given.connection - 1], given.recording)
    return write_sides(found[given.connection - 1], given.files)


if __name__ == "__main__":
    sys.exit(main())
