#!/usr/bin/env python3
"""The simulated station is like a real one: each line of a status and each event of the simulated station has the members that a
running server gives to lines and events of its kind, with values of the same type.

usage: tests/likeness.py SERVER

One folder, two servers and a simulated station; it ends within a minute.
"""
import json
import os
import pathlib
import socket
import subprocess
import sys
import tempfile
import time

from support import Client, Station, Wrong, file_data, free_port, metadata, until

SERVER = os.path.abspath(sys.argv[1])
FAKE = os.path.join(os.path.dirname(os.path.abspath(__file__)), "fake_station.py")
# A file that is being read: no moment is long enough to meet one for sure.
UNSEEN = ("reading",)
# Members that a line has only in cases that the real stations here don't meet.
SOMETIMES = {"parked.since", "storing.why", "refusal.pdu", "refusal.source", "refusal.seq", "unsent.reason"}
TYPES = {str: "a text", int: "a number", bool: "true or false", dict: "an object", list: "a list"}


def shape(value, name):
    """The members of a line, with the types of their values."""
    members = {}
    for member, inner in value.items():
        members[f"{name}.{member}"] = TYPES[type(inner)]
        if isinstance(inner, dict):
            members |= shape(inner, f"{name}.{member}")
    return members


def kind_of(line):
    """What a line is of: its kind; of an indication its name, too."""
    return " ".join([line["kind"], *([line["name"]] if line["kind"] == "indication" else [])])


def add(shapes, lines):
    for line in lines:
        shapes.setdefault(kind_of(line), []).append(shape(line, kind_of(line)))


def all_members(shapes, kind):
    """The members that lines of a kind may have, and those that each of them has."""
    may, each = {}, None
    for one in shapes[kind]:
        may |= one
        each = set(one) if each is None else each & set(one)
    return may, each


def collect(shapes, client, follower):
    """Notes the lines of a status, and the events that a follower has so far."""
    add(shapes, client.status())
    follower.ask("trace 1 1")
    add(shapes, follower.events)
    follower.events.clear()


def send_datagram(octets, port):
    with socket.socket(socket.AF_INET, socket.SOCK_DGRAM) as source:
        source.sendto(octets, ("127.0.0.1", port))


def busy_station(one, two, port, shapes):
    """Files wait, leave, arrive, can't be stored and can't be read; datagrams are parked and refused."""
    clients = [one.client(), one.client(), two.client(), two.client()]
    for follower in clients[1::2]:
        follower.ask("follow 1000")
    pathlib.Path("file").write_bytes(bytes(40_000))
    file = os.path.abspath("file")
    for number in range(5):
        clients[0].ask(f"send alice 2 2 {file} to{number}")
    until(lambda: [line["kind"] for line in clients[0].status()].count("queued") == 5, "files that wait")
    collect(shapes, *clients[:2])
    os.rename(two.received(), "aside")
    clients[0].ask("release 2")
    until(lambda: [line["kind"] for line in clients[0].status()].count("transaction") >= 3, "files under way")
    collect(shapes, *clients[:2])
    until(lambda: any("why" in line for line in clients[2].status() if line["kind"] == "storing"), "a file that can't be stored")
    collect(shapes, *clients[2:])
    os.rename("aside", two.received())
    until(lambda: len(os.listdir(two.received())) == 5, "five files")
    clients[0].ask(f"send alice 2 2 {file}.missing gone")
    until(lambda: clients[0].ask("outbox") == [], "an empty outbox")
    clients[0].ask("hold 2")
    send_datagram(metadata(1_001, 100, b"opened"), port)
    # two workers read, and the later transaction may not begin first
    until(lambda: 1_001 in [line.get("seq") for line in clients[0].status()], "the reception that has the lane")
    for datagram in (file_data(1_009, 0, b"parked"), b"no PDU"):
        send_datagram(datagram, port)
    until(lambda: {"parked", "refusal"} <= {line["kind"] for line in clients[0].status()}, "a parked datagram and a refusal")
    time.sleep(1.2)
    collect(shapes, *clients[:2])
    collect(shapes, *clients[2:])


def real_shapes():
    """What two stations say of themselves."""
    shapes = {}
    os.makedirs("records")
    ports = [free_port(), free_port()]
    # three sending lanes don't divide eight receiving ones, so there is a note
    told = ("station.hold = true", "record.folder = 'records'", "log.file = 'log'", "sending.rate = 40000")
    one = Station(SERVER, 1, ports[0], 2, ports[1], told, lanes=3)
    two = Station(SERVER, 2, ports[1], 1, ports[0], ("store.retry_s = 30", "store.layout = 'tree'"))
    try:
        busy_station(one, two, ports[0], shapes)
    finally:
        one.close()
        two.close()
    return shapes


def simulated_shapes():
    """What the simulated station says of itself."""
    shapes = {}
    pathlib.Path("file").write_bytes(bytes(2_000))
    words = ["simulated", "--reading", "a", "--storing", "2", "--recorded", "3,0,0", "--parked", "1", "--note", "--unreadable", "missing",
             "--lanes", "1", "--pace", "1000000", "--counters"]
    with subprocess.Popen([sys.executable, FAKE, *words]) as running:
        try:
            until(lambda: os.path.exists("simulated"), "the simulated station")
            client, follower = Client("simulated"), Client("simulated")
            follower.ask("follow 10")
            pathlib.Path("missing").write_bytes(b"")
            for name in ("file", "file", "missing"):
                client.ask(f"send ops 2 7 {os.path.abspath(name)} to")
            client.ask("hold 5")
            add(shapes, client.status())
            client.ask("release 5")
            add(shapes, client.status())
            time.sleep(1.5)
            collect(shapes, client, follower)
        finally:
            running.kill()
    return shapes


def differences(simulated, real):
    """Where lines of the simulated station aren't like those of a real one."""
    for kind, lines in sorted(simulated.items()):
        if kind in UNSEEN:
            continue
        if kind not in real:
            yield f"{kind}: no such line was seen of a real station"
            continue
        may, each = all_members(real, kind)
        for line in lines:
            for member, found in line.items():
                if may.get(member) != found:
                    yield f"{member} is {found}, and of a real station {may.get(member, 'nothing')}"
            for member in each - set(line) - SOMETIMES:
                yield f"{member} is missing"


def main():
    with tempfile.TemporaryDirectory() as home:
        os.chdir(home)
        real, simulated = real_shapes(), simulated_shapes()
        os.chdir("/")
    wrong = sorted(set(differences(simulated, real)))
    for line in wrong:
        print(f"likeness: {line}")
    if wrong or len(set(simulated) & set(real)) < 15:
        sys.exit(1)
    print(f"the simulated station is like a real one: {len(set(simulated) & set(real))} kinds of lines and events")


try:
    main()
except Wrong as why:
    sys.exit(f"likeness: {why}")
