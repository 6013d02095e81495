#!/usr/bin/env python3
"""Many files at once between two stations: all arrive whole, whatever their numbers of lanes and users are, and no part of a file
leaves twice over a link that loses nothing.

usage: tests/many.py SERVER CTL

Each case has its own servers on loopback, in its own folder, and ends within three minutes.
"""
import os
import pathlib
import random
import re
import sys

from support import Relay, Station, case, configuration, end_of_file, file_data, linked, metadata, run_cases, station, until, want

SERVER, CTL = (os.path.abspath(path) for path in sys.argv[1:3])
EXAMPLES = pathlib.Path(__file__).resolve().parent.parent / "examples"
SECONDS = 120
# Octets a second: slower than the relay between the stations, so that it loses nothing.
RATE = ("sending.rate = 3000000",)


def named(count):
    """The names of users; the first one receives."""
    return ("alice", *(f"user{number}" for number in range(1, count)))


def example(name):
    """The text of an example's configuration for a station, its peer and the peer's port, without the station's own tables. The example
    is of entity 2. Its timers are as long as a busy machine may need."""
    whole = (EXAMPLES / name).read_text()
    text = re.sub(r"^(ack|nak|check|inactivity)_ms = \d+$", r"\1_ms = 30000", whole[whole.index("[entity]"):], flags=re.MULTILINE)

    def made(number, remote, port):
        lines = [f"id = {number if line == 'id = 2' else remote}" if line in ("id = 1", "id = 2")
                 else f'address = "127.0.0.1:{port}"' if line.startswith("address") else line for line in text.splitlines()]
        return "\n".join(lines)

    return made


def stations(first=(), second=(), text=None, peers_lanes=None, **around):
    """Two stations, 1 and 2, over a link that loses nothing. One worker takes datagrams in the order in which they come; several may
    take an EOF before the part that came before it, and ask for that again."""
    around = {"workers": 1, **around}
    rooms = [around, {**around, "recv_lanes": peers_lanes} if peers_lanes else around]

    def start(place, port, peer):
        own, other = place + 1, 2 - place
        made = text(own, other, peer) if text else None
        return Station(SERVER, own, port, other, peer, (*RATE, *(first, second)[place]), text=made, **rooms[place])

    return linked(Relay(), start)


def dropped(ports):
    """How many datagrams the system dropped at sockets with these ports, since nobody read them in time."""
    rows = [line.split() for line in pathlib.Path("/proc/net/udp").read_text().splitlines()[1:]]
    return sum(int(row[-1]) for row in rows if int(row[1].split(":")[1], 16) in ports)


def no_part_twice(relay, *both):
    """No part of a file left twice, unless the system lost some of what passed, as on a busy machine."""
    want(relay.twice == 0 or dropped([*relay.ports, *(one.port for one in both)]) > 0, True)


class Sender:
    """One of two stations, which sends files to the other one."""

    def __init__(self, one, remote, users, lanes, peers_lanes):
        self.one, self.remote, self.users, self.lanes, self.peers_lanes = one, remote, users, lanes, peers_lanes
        self.files = {}
        self.client = one.client()
        want(self.client.ask("follow"), ["ok"])

    def write(self, size):
        """A file, and its name here and there."""
        name = f"from{self.one.home}-{len(self.files)}"
        self.files[name] = random.Random(name).randbytes(size)
        pathlib.Path(name).write_bytes(self.files[name])
        return name

    def send(self, service, sizes, closure=False):
        """Gives files to the outbox, each user in turn."""
        for place, size in enumerate(sizes):
            name = self.write(size)
            words = f"{self.users[place % len(self.users)]} {service} {self.remote} {name} {name}"
            want(self.client.ask(f"send {words}{' closure' if closure else ''}")[0].split()[0], "queued")

    def events(self, kind):
        return [event for event in self.client.events if event["kind"] == kind]

    def lane_of(self, number):
        return number % (len(self.users) * self.lanes)

    def numbers_are_in_order(self):
        """Toward each receiving lane numbers rise; and each number that no file has is told of as used up."""
        numbers = [event["seq"] for event in self.events("put")]
        want(len(numbers), len(self.files))
        for remainder in range(self.peers_lanes):
            toward = [number for number in numbers if number % self.peers_lanes == remainder]
            want(toward, sorted(set(toward)))
        count = len(self.users) * self.lanes
        ends = {}
        for number in [number + count for number in numbers] + [event["next"] for event in self.events("skipped")]:
            ends[self.lane_of(number)] = max(number, ends.get(self.lane_of(number), 0))
        used_up = sum((end - (count + lane)) // count for lane, end in ends.items()) - len(numbers)
        want(sum(event["count"] for event in self.events("skipped")), used_up)


def content(folder):
    return {path.name: path.read_bytes() for path in folder.iterdir() if not path.name.startswith(".part-")}


def is_over(lines):
    # how one ended is known once its last indication was taken
    return all(line["state"] == "ended" and "condition" in line for line in lines if line["kind"] == "transaction") and \
        not any(line["kind"] in ("queued", "reading") for line in lines)


def status_at_end(client):
    """The status in which all transactions have ended. In the next one another may have begun, which only uses up a number."""
    lines = []

    def is_reached():
        lines[:] = client.status()
        return is_over(lines)

    until(is_reached, "the end of all transactions", SECONDS)
    return lines


def is_bad(line):
    """Whether a transaction ended in a fault, other than one that only used up its number."""
    return line["condition"] and not (line["role"] == "sender" and line["condition"] == 15 and line.get("file") == "nothing")


def whole(receiver, *senders):
    """All files arrive whole, nothing waits, nothing was dropped, and each end of a transaction is a good one."""
    files = {name: octets for sender in senders for name, octets in sender.files.items()}
    client = receiver.client()
    until(lambda: set(content(receiver.received())) >= set(files), f"all {len(files)} files", SECONDS)
    want({name: len(octets) for name, octets in content(receiver.received()).items()}, {name: len(files[name]) for name in files})
    want([name for name, octets in content(receiver.received()).items() if files[name] != octets], [])
    for one in (client, *(sender.client for sender in senders)):
        lines = status_at_end(one)
        want([line for line in lines if line["kind"] == "parked" and line["dropped"]], [])
        want([line for line in lines if line.get("name") == "LaneBusy"], [])
        want([line for line in lines if line["kind"] == "transaction" and is_bad(line)], [])
    for sender in senders:
        want(sender.events("unsent"), [])
        sender.numbers_are_in_order()
    client.close()


def one_way(lanes, users, recv_lanes, service, sizes, peers_lanes=None, workers=1, **around):
    """Files go from station 1 to station 2."""
    with stations(lanes=lanes, users=named(users), recv_lanes=recv_lanes, peers_lanes=peers_lanes, workers=workers, **around) as both:
        one, other, relay = both
        other.client().close()
        sender = Sender(one, 2, named(users), lanes, peers_lanes or recv_lanes)
        sender.send(service, sizes)
        whole(other, sender)
        if workers == 1:
            no_part_twice(relay, one, other)


@case
def eight_lanes_and_two_users():
    """Two lanes of a user share one receiving lane."""
    for service in (2, 1):
        one_way(8, 2, 8, service, [20_000] * 16)


@case
def small_files_in_class_1():
    """A file is sent before the receiver has stored the one before it."""
    one_way(4, 2, 8, 1, [1_000] * 100)


@case
def more_users_than_receiving_lanes():
    one_way(4, 16, 2, 2, [1_000] * 40)


@case
def empty_files():
    one_way(1, 8, 2, 1, [0] * 40)


@case
def a_peer_with_fewer_lanes():
    """The peer has three receiving lanes, which the sender is told; its own are eight."""
    one_way(4, 2, 8, 2, [3_000] * 24, peers_lanes=3, first=("remote[2].lanes = 3",))


@case
def the_reference_configuration():
    """Its queues take eight bundles, its limits are two, and a fault of its receivers suspends."""
    for service in (2, 1):
        with stations(text=example("entity.toml")) as (one, other, relay):
            other.client().close()
            sender = Sender(one, 2, ("alice", "bob"), 2, 2)
            sender.send(service, [10_000] + [50_000] * 6)
            whole(other, sender)
            no_part_twice(relay, one, other)


@case
def stations_as_they_begin():
    """With the configuration for beginners, by the program for commands, which waits."""
    with stations(text=example("station.toml")) as (one, other, relay):
        other.client().close()
        sender = Sender(one, 2, ("ops",), 8, 8)
        names = [sender.write(size) for size in (0, 1, 1_399, 1_400, 1_401, *range(2_000, 40_000, 2_000))]
        done = one.ctl(CTL, "send", "--user", "ops", "--to", "2", "--wait", *names)
        want((done.returncode, done.stderr), (0, ""))
        whole(other, sender)
        no_part_twice(relay, one, other)
        want(sender.events("skipped"), [])


@case
def several_workers():
    """Four threads read datagrams and park them."""
    for service in (2, 1):
        one_way(8, 2, 8, service, [6_000] * 32, workers=4)


@case
def both_directions_at_once():
    for service in (2, 1):
        with stations(lanes=8, users=named(2)) as (one, other, relay):
            senders = [Sender(one, 2, named(2), 8, 8), Sender(other, 1, named(2), 8, 8)]
            for sender in senders:
                sender.send(service, [0, 8_000, 16_000] * 8)
            whole(other, senders[0])
            whole(one, senders[1])
            no_part_twice(relay, one, other)


@case
def both_classes_and_closure():
    """Files of class 1, some with closure, and of class 2 go side by side."""
    with stations(lanes=4, users=named(2), recv_lanes=4) as (one, other, relay):
        other.client().close()
        sender = Sender(one, 2, named(2), 4, 4)
        for _ in range(4):
            sender.send(1, [4_000] * 3, closure=True)
            sender.send(2, [4_000] * 3)
            sender.send(1, [4_000] * 3)
        whole(other, sender)
        no_part_twice(relay, one, other)


def of_kind(client, kind):
    return [line for line in client.status() if line["kind"] == kind]


def busy(client):
    return [line["count"] for line in of_kind(client, "refusal") if line["name"] == "LaneBusy"]


def a_second_file(one, peer, client):
    """Two files for one lane, the second one before the first has ended. Their ends come later."""
    peer.sendto(metadata(8, 3, b"first"), ("127.0.0.1", one.port))
    until(lambda: [line["seq"] for line in of_kind(client, "transaction")] == [8], "the first file's beginning")
    for octets in (metadata(16, 3, b"second"), file_data(16, 0, b"def"), end_of_file(16, b"def")):
        peer.sendto(octets, ("127.0.0.1", one.port))
    until(lambda: client.status()[0]["counters"]["datagrams_in"] == 4, "four datagrams")


@case
def datagrams_that_wait():
    """They are shown while they wait for their lane, and are taken once it is free."""
    with station(SERVER) as (one, peer):
        client = one.client()
        a_second_file(one, peer, client)
        until(lambda: [line["datagrams"] for line in of_kind(client, "parked")] == [3], "the datagrams that wait")
        line = of_kind(client, "parked")[0]
        want([line[key] for key in ("user", "datagrams", "transactions", "dropped")], ["alice", 3, 1, 0])
        want((0 < line["octets"], "since" in line, busy(client)), (True, True, []))
        for octets in (file_data(8, 0, b"abc"), end_of_file(8, b"abc")):
            peer.sendto(octets, ("127.0.0.1", one.port))
        until(lambda: content(one.received()) == {"first": b"abc", "second": b"def"}, "both files")
        until(lambda: is_over(client.status()), "both ends")
        want(of_kind(client, "parked"), [])


@case
def room_that_is_shared():
    """Of five remote entities four take a quarter of the room each, of which each lane could take all. The fifth finds the room full,
    and those that have most give way to it."""
    text = configuration("127.0.0.1:9", ("alice",), lanes=4, id=1, remote=2, octets=4, inactivity=300_000)
    remote = text[text.index("[[remote]]"):]
    text += "".join(remote.replace("id = 2\n", f"id = {number}\n", 1) for number in range(3, 7))
    # room for sixteen datagrams of 20,014 octets, each with 64 more
    with station(SERVER, options=("station.park = 321400",), text=text) as (one, peer):
        client = one.client()
        sent = 0

        def send(*datagrams):
            nonlocal sent
            for datagram in datagrams:
                peer.sendto(datagram, ("127.0.0.1", one.port))
            sent += len(datagrams)
            until(lambda: client.status()[0]["counters"]["datagrams_in"] == sent, "what was sent")

        def opened(source, *seqs):
            send(*(metadata(seq, 90_000, b"first", source) for seq in seqs))
            until(lambda: all((source, seq) in [(line["source"], line["seq"]) for line in of_kind(client, "transaction")] for seq in seqs),
                  "the beginnings of files")

        def parts(source, seq, count):
            send(*(file_data(seq, place * 20_000, bytes(20_000), source) for place in range(count)))

        for source in range(2, 6):
            opened(source, *range(4, 8))
            for seq in range(8, 12):
                parts(source, seq, 4)
        opened(6, 4)
        parts(6, 8, 2)

        def of_sources(member):
            """The sum over the four lanes of each source, which come after four sending lanes."""
            lines = of_kind(client, "parked")
            return [sum(line[member] for line in lines if line["lane"] // 4 == source - 1) for source in range(2, 7)]

        until(lambda: of_sources("datagrams") == [3, 3, 4, 4, 2], "the shares of the room")
        want(of_sources("dropped"), [13, 13, 12, 12, 0])


@case
def parking_that_is_off():
    """With no room for datagrams a busy lane refuses them, as a server without parking does."""
    with station(SERVER, options=("station.park = 0",)) as (one, peer):
        client = one.client()
        a_second_file(one, peer, client)
        until(lambda: busy(client) == [3], "three refusals")
        for octets in (file_data(8, 0, b"abc"), end_of_file(8, b"abc")):
            peer.sendto(octets, ("127.0.0.1", one.port))
        until(lambda: content(one.received()) == {"first": b"abc"}, "the first file")
        until(lambda: is_over(client.status()), "its end")
        want((content(one.received()), of_kind(client, "parked")), ({"first": b"abc"}, []))


def number_after(peer, octets=10):
    """The number of the next transaction whose Metadata arrives at a peer that only listens."""
    while True:
        datagram = peer.recv(65_536)
        if not datagram[0] & 0x10 and datagram[octets] == 7:
            return int.from_bytes(datagram[5:9], "big")


@case
def numbers_that_are_used_up():
    """The last user's number is above the first user's, which a peer with two lanes would refuse: it is used up, and the event
    says so. A peer that takes any number gets it."""
    for word, number in (("2", 16), ("'none'", 8), ("3", 16), ("4", 8)):
        with station(SERVER, options=(f"remote[2].lanes = {word}",), lanes=1, users=named(8)) as (one, peer):
            client = one.client()
            want(client.ask("follow"), ["ok"])
            pathlib.Path("a").write_bytes(b"abc")
            want(client.ask("send user6 1 2 a b"), ["queued 1"])
            want(number_after(peer), 14)
            until(lambda: is_over(client.status()), "the first end")
            want(client.ask("send alice 1 2 a b"), ["queued 2"])
            want(number_after(peer), number)
            until(lambda: is_over(client.status()), "the second end")
            told = [(event["user"], event["destination"], event["count"], event["next"])
                    for event in client.events if event["kind"] == "skipped"]
            want(told, [("alice", 2, 1, 16)] if number == 16 else [])


@case
def lanes_that_do_not_fit():
    """A status notes where files wait for each other, and which numbers of sending lanes are better."""
    note = {"kind": "note", "remote": 2, "sending_lanes": 6, "receiving_lanes": 8, "better": [1, 2, 4, 8]}
    for options, notes in (((), [note]), (("remote[2].lanes = 3",), [{**note, "receiving_lanes": 3, "better": [1, 3]}]),
                           (("remote[2].lanes = 6",), []), (("remote[2].lanes = 'none'",), [])):
        with station(SERVER, options=options, lanes=3, users=named(2)) as (one, _):
            want(of_kind(one.client(), "note"), notes)


@case
def lanes_of_nobody():
    """A remote entity has 1 to 8 receiving lanes, or any number."""
    for word in ("0", "9", "'all'"):
        with station(SERVER, options=(f"remote[2].lanes = {word}",)) as (one, _):
            want(one.run.wait(60), 1)
            want(one.run.stderr.readline(), b"cfdp_server: config fault 4\n")


run_cases("many files")
