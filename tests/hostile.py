#!/usr/bin/env python3
"""What strangers and full memories can't do to a running server.

usage: tests/hostile.py SERVER PUT

Each case has its own server on loopback, in its own folder. Three of them fill a journal, which takes half a minute each.
"""
import json
import os
import pathlib
import socket
import subprocess
import sys
import threading
import time

from support import (
    ack_of_finished, case, configuration, end_of_file, file_data, free_port, in_class_2, library, metadata, pdu, run_cases, socket_of_peer,
    station, until, want,
)

SERVER, PUT = (os.path.abspath(word) for word in sys.argv[1:3])
# How many events a transaction takes at most.
MOST_EVENTS = 262_144


def prompt(seq):
    """A Prompt that asks for a Keep Alive."""
    return in_class_2(pdu("directive", seq, bytes([9, 0x80])))


@case
def names_that_turn_a_terminal_round():
    """No event has a character that a terminal obeys or that turns the direction of text; the name is the same once it is read."""
    name = "a\x7f\x9b2J\u202ecod.exe\u2069é".encode()
    hidden = ["\x7f".encode(), "\x9b".encode(), "\u202e".encode(), "\u2069".encode()]
    with station(SERVER, options=("log.file = 'log'",)) as (one, peer):
        client = one.client()
        want(client.ask("follow"), ["ok"])
        for datagram in (metadata(1, 3, name), file_data(1, 0, b"abc"), end_of_file(1, b"abc")):
            peer.sendto(datagram, ("127.0.0.1", one.port))
        lines = []
        while not lines or json.loads(lines[-1][6:]).get("name") != "Metadata-Recv":
            lines.append(client.line())
        want([octets for octets in hidden if octets in lines[-1]], [])
        want(json.loads(lines[-1][6:])["to"].encode(), name)
        until(lambda: b"Metadata-Recv" in pathlib.Path("log").read_bytes(), "the log")
        want([octets for octets in hidden if octets in pathlib.Path("log").read_bytes()], [])


def answers_of(peer, seconds):
    """How many datagrams come within a time."""
    peer.settimeout(0.05)
    count, end = 0, time.monotonic() + seconds
    while time.monotonic() < end:
        try:
            peer.recv(2_048)
            count += 1
        except TimeoutError:
            pass
    peer.settimeout(20)
    return count


def flood(one, datagrams, seconds):
    """Sends datagrams over and over for a time; gives how many."""
    count, end = 0, time.monotonic() + seconds
    with socket.socket(socket.AF_INET, socket.SOCK_DGRAM) as source:
        while time.monotonic() < end:
            for datagram in datagrams * 5:
                source.sendto(datagram, ("127.0.0.1", one.port))
                count += 1
            time.sleep(0.001)
    return count


def replies_to_a_flood(datagrams, *before, options=()):
    """How many datagrams leave in four seconds, in three of which a flood comes, and what the status says of sends that failed. What
    comes before the flood is sent in groups, a second apart."""
    with station(SERVER, options=options) as (one, peer):
        client = one.client()
        for group in before:
            for datagram in group:
                peer.sendto(datagram, ("127.0.0.1", one.port))
            answers_of(peer, 1)
        heard = []
        reader = threading.Thread(target=lambda: heard.append(answers_of(peer, 4)))
        reader.start()
        flood(one, datagrams, 3)
        reader.join()
        failed = lambda: client.status()[0]["counters"]["failed_sends"]
        # a slow machine needs more of the flood
        until(lambda: flood(one, datagrams, 0.5) and failed() > 500, "five hundred replies that were left out", 90)
        return heard[0], failed()


@case
def prompts_without_end():
    """A peer that asks for Keep Alives without end gets at most a hundred a second."""
    heard, left_out = replies_to_a_flood([prompt(1)], [in_class_2(metadata(1, 100, b"a"))])
    want((100 <= heard <= 520, left_out > 500), (True, True))


@case
def echoes_without_end():
    """An ended transaction of class 2 answers a repeated EOF at most a hundred times a second."""
    ended = [in_class_2(one) for one in (metadata(1, 3, b"a"), file_data(1, 0, b"abc"), end_of_file(1, b"abc"))]
    heard, left_out = replies_to_a_flood([ended[2]], ended, [ack_of_finished(1)])
    want((50 <= heard <= 520, left_out > 500), (True, True))


class Reader(threading.Thread):
    """A follower that reads as fast as it can: how many events it read, and whether their numbers have no gap."""

    def __init__(self, client):
        super().__init__(daemon=True)
        self.client = client
        self.count = 0
        self.last = None
        self.has_gap = False
        self.is_cut = False

    def run(self):
        mark = b'"number":'
        while True:
            line = self.client.line()
            if line is None:
                self.is_cut = True
                return
            at = line.find(mark)
            if line.startswith(b"event ") and at >= 0:
                number = int(line[at + len(mark):].split(b",", 1)[0].rstrip(b"}"))
                self.has_gap |= self.last is not None and number != self.last + 1
                self.last = number
                self.count += 1


@case
def bundles_of_many_indications():
    """One datagram of File Data that fills thousands of gaps is one bundle. A follower that reads gets each of its events, and so does
    the log. One worker takes that datagram behind those before it."""
    holes = 12_000
    with station(SERVER, options=("log.file = 'log'",), workers=1) as (one, peer):
        reader = Reader(one.client())
        want(reader.client.ask("follow"), ["ok"])
        reader.start()
        control = one.client()
        sent = 0
        for seq in (1, 2, 3, 4):
            singles = [file_data(seq, 2 * place, b"x") for place in range(holes)]
            for datagram in [metadata(seq, 2 * holes, b"f%d" % seq), *singles, file_data(seq, 0, bytes(2 * holes))]:
                peer.sendto(datagram, ("127.0.0.1", one.port))
                sent += 1
                if sent % 100 == 0:
                    until(lambda: control.status()[0]["counters"]["datagrams_in"] >= sent, "a hundred datagrams")
        until(lambda: reader.count > 8 * holes or reader.is_cut, "the last events", 60)
        until(lambda: control.status()[0]["events"] == reader.last or reader.is_cut, "the last event", 60)
        want((reader.is_cut, reader.has_gap), (False, False))
        until(lambda: len(pathlib.Path("log").read_bytes().splitlines()) >= reader.last, "the log", 20)
        want([line["lost"] for line in control.status() if line["kind"] == "log"], [0])


def keep_alive(seq):
    """A Keep Alive toward entity 1, the sender of a transaction."""
    return bytes([0x28, 0, 5, 0x03, 1]) + seq.to_bytes(4, "big") + bytes([2, 12]) + bytes(4)


def fill_journal(one, control, peer, datagram):
    """Sends a datagram as often as a transaction takes events, as fast as the server reads."""
    begun = control.status()[0]["counters"]["datagrams_in"]
    for count in range(1, MOST_EVENTS + 1):
        peer.sendto(datagram, ("127.0.0.1", one.port))
        if count % 200 == 0:
            until(lambda count=count: control.status()[0]["counters"]["datagrams_in"] >= begun + count, "two hundred datagrams")


def abandoned(client, seq):
    """Waits for the report that a transaction's journal is full, and for its end."""
    client.wait_event(lambda event: event["kind"] == "journal-full" and event["seq"] == seq, "the report of a full journal")
    client.wait_event(lambda event: event.get("name") == "Abandoned" and event["seq"] == seq, "the end of the transaction")


@case
def a_journal_that_is_full_at_a_sender():
    """A peer that floods a file of the outbox doesn't stop the outbox: the file is abandoned, and the next one goes."""
    pathlib.Path("file").write_bytes(b"abc")
    with station(SERVER, timer=1_500, limit=200, lanes=1, users=("alice",)) as (one, peer):
        control, client = one.client(), one.client()
        want(client.ask("follow"), ["ok"])
        want(control.ask(f"send alice 2 2 {os.path.abspath('file')} a"), ["queued 1"])
        first = client.wait_event(lambda event: event["kind"] == "put", "the first file")["seq"]
        fill_journal(one, control, peer, keep_alive(first))
        want(control.ask(f"send alice 2 2 {os.path.abspath('file')} b"), ["queued 2"])
        abandoned(client, first)
        client.wait_event(lambda event: event["kind"] == "put" and event["queued"] == 2, "the next file")


@case
def a_journal_that_is_full_at_a_receiver():
    """With `abandon_full` a reception that a peer floods is abandoned, and its lane takes the next file."""
    with station(SERVER, options=("station.abandon_full = true",)) as (one, peer):
        control, client = one.client(), one.client()
        peer.sendto(metadata(1, 3, b"a"), ("127.0.0.1", one.port))
        fill_journal(one, control, peer, file_data(1, 0, b"a"))
        want(client.ask("follow 1000"), ["ok"])
        abandoned(client, 1)
        for datagram in (metadata(9, 3, b"b"), file_data(9, 0, b"abc"), end_of_file(9, b"abc")):
            peer.sendto(datagram, ("127.0.0.1", one.port))
        until(lambda: (one.received() / "b").exists(), "the next file of the lane")


@case
def a_journal_that_is_full_at_a_put():
    """A put whose peer floods it abandons its transaction, prints its end, and ends with status 2."""
    pathlib.Path("file").write_bytes(b"abc")
    with socket_of_peer() as peer:
        text = configuration(f"127.0.0.1:{peer.getsockname()[1]}", ("alice",), 1_500, 200, id=1, remote=2, octets=4)
        pathlib.Path("config").write_text(text)
        port = free_port()
        words = [PUT, "--config", "config", "--bind", f"127.0.0.1:{port}", "--user", "alice", "--remote", "2", "--class", "2", "file", "a"]
        with subprocess.Popen(words, stdout=subprocess.PIPE, stderr=subprocess.PIPE, text=True) as run:
            try:
                seq = int.from_bytes(peer.recv(2_048)[5:9], "big")
                end = time.monotonic() + 150
                while run.poll() is None and time.monotonic() < end:
                    for _ in range(50):
                        peer.sendto(keep_alive(seq), ("127.0.0.1", port))
                    time.sleep(0.001)
                want(run.poll(), 2)
                want("Abandoned" in run.stdout.read(), True)
            finally:
                run.kill()


def toward_sender(seq, body):
    """A directive toward entity 1, the sender of a transaction."""
    return bytes([0x28]) + len(body).to_bytes(2, "big") + bytes([0x03, 1]) + seq.to_bytes(4, "big") + bytes([2]) + body


def single_octets(seq, size, offsets):
    """A NAK that requests the octet at each of these offsets."""
    requests = b"".join(at.to_bytes(4, "big") + (at + 1).to_bytes(4, "big") for at in offsets)
    return toward_sender(seq, bytes([8]) + bytes(4) + size.to_bytes(4, "big") + requests)


def sent_to_its_end(peer, one):
    """Reads until the EOF of a file comes, and acknowledges it; gives the number of the transaction."""
    while True:
        datagram = peer.recv(2_048)
        if not datagram[0] & 0x10 and datagram[10] == 4:
            seq = int.from_bytes(datagram[5:9], "big")
            peer.sendto(toward_sender(seq, bytes([6, 0x40, 0x01])), ("127.0.0.1", one.port))
            return seq


@case
def requests_at_falling_offsets():
    """Eighty NAKs with 8,100 requests each, of single octets at falling offsets, take moments: another file comes meanwhile, and the
    lowest octet that was requested is sent. If each request moved the runs above it, they would take minutes."""
    size, count, naks = 2_000_000, 8_100, 80
    pathlib.Path("file").write_bytes(bytes(size))
    with station(SERVER) as (one, peer):
        control = one.client()
        want(control.ask("send alice 2 2 file there"), ["queued 1"])
        seq = sent_to_its_end(peer, one)
        want(control.ask("hold 2"), ["ok"])
        events = lambda: next(line["events"] for line in control.status() if line["kind"] == "transaction" and line["seq"] == seq)
        begun, lowest = time.monotonic(), size
        for _ in range(naks):
            before = events()
            peer.sendto(single_octets(seq, size, range(lowest - 2, lowest - 2 * count - 2, -2)), ("127.0.0.1", one.port))
            until(lambda: events() > before, "a NAK's step", 100)
            lowest -= 2 * count
        for datagram in (metadata(9, 3, b"b"), file_data(9, 0, b"abc"), end_of_file(9, b"abc")):
            peer.sendto(datagram, ("127.0.0.1", one.port))
        until(lambda: (one.received() / "b").exists(), "another file", 100)
        want(time.monotonic() - begun < 100, True)
        want(control.ask("release 2"), ["ok"])
        while peer.recv(2_048)[10:] != lowest.to_bytes(4, "big") + b"\0":
            pass


def turn_switch(octet):
    """Lets allocations fail, or no more. The file is written in place, since the server has it in its memory."""
    with open("switch", "r+b") as switch:
        switch.write(octet)


def at_the_end_of_memory(moment):
    """After so many datagrams of two transfers each allocation fails; commands are still answered, and the server ends."""
    pathlib.Path("switch").write_bytes(b"\0")
    around = {**os.environ, "LD_PRELOAD": library("failing_malloc"), "FAIL_SWITCH": os.path.abspath("switch")}
    with station(SERVER, around=around) as (one, peer):
        clients = [one.client() for _ in range(3)]
        want([client.ask("status") is not None for client in clients], [True] * 3)
        datagrams = []
        for seq in (1, 2):
            datagrams.append(in_class_2(metadata(seq, 4_000, b"f%d" % seq)))
            datagrams += [in_class_2(file_data(seq, 500 * place, bytes(500))) for place in range(8)]
        for datagram in datagrams[:moment]:
            peer.sendto(datagram, ("127.0.0.1", one.port))
        time.sleep(0.1)
        turn_switch(b"\1")
        for datagram in datagrams[moment:]:
            peer.sendto(datagram, ("127.0.0.1", one.port))
        # timers expire meanwhile
        time.sleep(0.7)
        for command in ("abandon alice 2 1", "hold 2", "release 2", "abandon alice 2 2"):
            answer = clients[0].ask(command)
            want((command, answer in (["ok"], ["refused 12 NoMemory"], ["refused 1 NoTransaction"])), (command, True))
        want(clients[1].ask("trace 2 1") is not None, True)
        want((clients[2].ask("quit"), one.run.wait(60)), (["ok"], 0))


@case
def memory_that_ends():
    """At ten moments of a transfer memory ends for good: the server still answers, and ends where it is told to."""
    for moment in (0, 1, 2, 3, 5, 8, 9, 10, 12, 18):
        os.makedirs(f"moment{moment}")
        os.chdir(f"moment{moment}")
        at_the_end_of_memory(moment)
        os.chdir("..")


@case
def a_file_for_which_memory_runs_out():
    """A file of the outbox for which there is no memory waits, and goes once there is; a put of it is refused."""
    pathlib.Path("switch").write_bytes(b"\0")
    pathlib.Path("file").write_bytes(bytes(300_000))
    around = {**os.environ, "LD_PRELOAD": library("failing_malloc"), "FAIL_SWITCH": os.path.abspath("switch"), "FAIL_FROM": "60000"}
    with station(SERVER, around=around, options=("station.hold = true",)) as (one, _):
        client = one.client()
        want((client.ask("follow"), client.ask("send alice 2 2 file there")), (["ok"], ["queued 1"]))
        turn_switch(b"\1")
        want(client.ask("release 2"), ["ok"])
        time.sleep(2.5)
        want((len(client.ask("outbox")), [event for event in client.events if event["kind"] == "unsent"]), (1, []))
        want(client.ask("put alice 0 2 2 file at-once"), ["refused 12 NoMemory"])
        turn_switch(b"\0")
        until(lambda: client.ask("outbox") == [], "the file")
        put = client.wait_event(lambda event: event["kind"] == "put", "its transaction")
        want((put["queued"], put["to"]), (1, "there"))


run_cases("hostile")
