#!/usr/bin/env python3
"""A relay between two programs on loopback, which loses and doubles datagrams in a fixed pattern.

usage: relay.py HERE_A PORT_A HERE_B PORT_B LOSE_EACH DOUBLE_EACH [SECONDS]

What comes to port HERE_A goes to PORT_A, and what comes to HERE_B goes to PORT_B. Of all datagrams each LOSE_EACH-th is
lost and each DOUBLE_EACH-th is sent twice (0: none). The relay ends when its standard input does, or after SECONDS
seconds (300 if not given), and then prints how many datagrams came, were lost and were doubled.
"""
import select
import socket
import sys
import time


def main():
    here_a, port_a, here_b, port_b, lose, double = map(int, sys.argv[1:7])
    seconds = float(sys.argv[7]) if len(sys.argv) > 7 else 300.0
    ways = {}
    for here, port in ((here_a, port_a), (here_b, port_b)):
        way = socket.socket(socket.AF_INET, socket.SOCK_DGRAM)
        way.setsockopt(socket.SOL_SOCKET, socket.SO_RCVBUF, 4_000_000)
        way.bind(("127.0.0.1", here))
        ways[way] = ("127.0.0.1", port)
    print("ready", flush=True)
    came = lost = doubled = 0
    end = time.monotonic() + seconds
    while time.monotonic() < end:
        ready, _, _ = select.select([*ways, sys.stdin], [], [], 1.0)
        if sys.stdin in ready:
            break
        for way in ready:
            datagram = way.recv(65_536)
            came += 1
            if lose and came % lose == 0:
                lost += 1
                continue
            way.sendto(datagram, ways[way])
            if double and came % double == 0:
                doubled += 1
                way.sendto(datagram, ways[way])
    print(f"{came} datagrams came, {lost} were lost, {doubled} were doubled", flush=True)


main()
