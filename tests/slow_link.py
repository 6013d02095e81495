#!/usr/bin/env python3
"""A link that is slower than the files that leave for it: it holds up no command, and nothing is lost for it.

usage: tests/slow_link.py SERVER

Each case has its own servers on the loopback of a network of this script's own, and ends within a minute.
"""
import os
import pathlib
import sys
import time

from support import Relay, Station, case, in_own_network, linked, run_cases, slow_loopback, station, until, want

SERVER = os.path.abspath(sys.argv[1])


def counters(client):
    return next(line["counters"] for line in client.status() if line["kind"] == "entity")


@case
def commands_beside_a_slow_link():
    """Each is done at once, though a datagram takes the link a tenth of a second and hundreds wait for it."""
    pathlib.Path("file").write_bytes(bytes(2_000_000))
    with slow_loopback("40kbit"), station(SERVER, options=()) as (one, _):
        client = one.client()
        want(client.ask("send alice 1 2 file file"), ["queued 1"])
        until(lambda: counters(client)["datagrams_out"] > 100, "what fills the socket's buffer")
        before, begun = counters(client)["datagrams_out"], time.monotonic()
        for _ in range(60):
            client.status()
        # if each turn of the server waited for its sends, sixty commands would take minutes
        want(time.monotonic() - begun < 40, True)
        want(counters(client)["datagrams_out"] - before < 1_000, True)
        want((client.ask("hold 2"), client.ask("quit"), one.run.wait(30)), (["ok"], ["ok"], 0))


@case
def a_file_in_class_1_over_a_slow_link():
    """What the link can't take now stays with its file: nothing is lost, although nobody would ask for it again."""
    octets = os.urandom(600_000)
    pathlib.Path("file").write_bytes(octets)
    with slow_loopback("1600kbit"), linked(Relay(), lambda place, port, peer: Station(SERVER, place + 1, port, 2 - place, peer, ())) as (one, other, _):
        client = one.client()
        want(client.ask("send alice 1 2 file file"), ["queued 1"])
        arrived = other.received() / "file"
        until(lambda: arrived.exists() and arrived.read_bytes() == octets, "the whole file", 60)
        want((counters(client)["failed_sends"], counters(client)["datagrams_out"] > 1_000), (0, True))


in_own_network()
run_cases("slow link")
