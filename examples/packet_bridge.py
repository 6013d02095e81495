#!/usr/bin/env python3
"""Carries PDUs between a server of this repository, which has one PDU in a UDP datagram, and a peer that has them in space packets.

    packet_bridge.py --station 127.0.0.1:4556 --listen 127.0.0.1:4600 --peer 192.0.2.20:1235 --packets 0.0.0.0:1234 \\
        --head 1fe7c00000000000 --strip 16 --apid 2020

A datagram from the server leaves for the peer with the octets of --head in front: a packet's header, in which the bridge fills in the
sequence count and the length. A packet from the peer loses the first octets that --strip says, and goes to the server. The bridge runs
until it is ended. What the system doesn't send (a datagram too long, an address that nobody listens at or that can't be reached) is
lost as on any link; the bridge counts it, and says so on the standard error, once a second at most.
"""
import argparse
import select
import socket
import sys
import time

PRIMARY = 6
LONGEST = 65_542


def address(text):
    host, _, port = text.rpartition(":")
    return host, int(port)


def head(text):
    octets = bytes.fromhex(text)
    if len(octets) < PRIMARY:
        raise ValueError("a packet's header has six octets at least")
    return octets


def words():
    reader = argparse.ArgumentParser(description=__doc__.partition("\n")[0])
    reader.add_argument("--station", type=address, required=True, metavar="ADDR", help="where the server listens (its --bind)")
    reader.add_argument("--listen", type=address, required=True, metavar="ADDR", help="the server's `address` for the peer: this program")
    reader.add_argument("--peer", type=address, required=True, metavar="ADDR", help="where packets for the peer go")
    reader.add_argument("--packets", type=address, required=True, metavar="ADDR", help="where packets of the peer arrive: this program")
    reader.add_argument("--head", type=head, required=True, metavar="HEX", help="the header that each PDU gets")
    reader.add_argument("--strip", type=int, required=True, metavar="N", help="how many octets are in front of a PDU in a packet")
    reader.add_argument("--apid", type=int, metavar="N", help="takes only packets with this APID")
    return reader.parse_args()


def packet(header, count, pdu):
    """A PDU behind a header, with the packet's sequence count and length."""
    flags = int.from_bytes(header[2:4], "big") & 0xC000
    length = len(header) - PRIMARY + len(pdu) - 1
    return header[:2] + (flags | count % 16_384).to_bytes(2, "big") + length.to_bytes(2, "big") + header[PRIMARY:] + pdu


def pdu_of(octets, strip, apid):
    """The PDU in a packet; nothing where the packet is another one, or is cut."""
    if len(octets) <= max(strip, PRIMARY) or len(octets) != PRIMARY + int.from_bytes(octets[4:6], "big") + 1:
        return b""
    if apid is not None and int.from_bytes(octets[:2], "big") & 0x7FF != apid:
        return b""
    return octets[strip:]


class Way:
    """Where a socket's datagrams go, and how many the system didn't send there."""

    def __init__(self, line, place):
        self.line, self.place, self.lost, self.told = line, place, 0, 0.0

    def send(self, octets):
        try:
            self.line.sendto(octets, self.place)
        except OSError as why:
            self.lost += 1
            if time.monotonic() - self.told >= 1:
                self.told = time.monotonic()
                print(f"packet_bridge: not sent to {self.place[0]}:{self.place[1]}: {why.strerror}; {self.lost} so far", file=sys.stderr, flush=True)


def next_from(line):
    """What a socket received; nothing where it has an error of an earlier send to tell."""
    try:
        return line.recv(LONGEST)
    except OSError:
        return b""


def main():
    given = words()
    plain, packed = (socket.socket(socket.AF_INET, socket.SOCK_DGRAM) for _ in range(2))
    for one, place in ((plain, given.listen), (packed, given.packets)):
        one.setsockopt(socket.SOL_SOCKET, socket.SO_RCVBUF, 4_000_000)
        one.bind(place)
    to_peer, to_station = Way(packed, given.peer), Way(plain, given.station)
    count = 0
    while True:
        for one in select.select([plain, packed], [], [])[0]:
            octets = next_from(one)
            if one is plain and octets:
                to_peer.send(packet(given.head, count, octets))
                count += 1
            elif one is packed:
                pdu = pdu_of(octets, given.strip, given.apid)
                if pdu:
                    to_station.send(pdu)


if __name__ == "__main__":
    try:
        main()
    except KeyboardInterrupt:
        pass
