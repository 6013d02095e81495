#!/usr/bin/env python3
"""What a restart of the server does to transfers, each way, as docs/operating.md has it in a table.

usage: tests/restarts.py SERVER

Each case has its own server on loopback, in its own folder, and ends within a minute.
"""
import contextlib
import os
import pathlib
import socket
import sys
import time

from support import Station, Wrong, case, end_of_file, file_data, free_port, metadata, run_cases, until, want

SERVER = os.path.abspath(sys.argv[1])
FILE = b"abcdef"
# After the header: the ACK of an EOF, of an active and of a terminated transaction; a NAK; a Finished, and its ACK.
ACK, LATE_ACK, NAK, FINISHED, FINISHED_ACK = "064001", "064002", "08", "05", "065102"


class Ends:
    """Station 1, which is killed and starts again, and its peer: a socket of this script's, in class 2."""

    def __init__(self, **named):
        self.named = {"timer": 300, "options": ("sending.numbers = 'numbers'",), **named}
        self.peer = socket.socket(socket.AF_INET, socket.SOCK_DGRAM)
        self.peer.bind(("127.0.0.1", 0))
        self.port = free_port()
        self.start()

    def start(self):
        self.one = Station(SERVER, 1, self.port, 2, self.peer.getsockname()[1], **self.named)
        self.client = self.one.client()

    def restart(self):
        """Kills the server. What it had sent before is not heard any more."""
        self.client.close()
        self.one.close()
        self.hear(until_silent=0.1)
        self.start()

    def close(self):
        self.one.close()
        self.peer.close()

    def send(self, *datagrams):
        """Sends PDUs in class 2."""
        for octets in datagrams:
            self.peer.sendto(bytes([octets[0] & ~4]) + octets[1:], ("127.0.0.1", self.port))

    def hear(self, *wanted, until_silent=None):
        """Reads PDUs until each of these kinds has come, or until nothing comes for a while; gives all, without their headers."""
        end = time.monotonic() + 60
        heard = []
        while until_silent is not None or not all(any(one.startswith(kind) for one in heard) for kind in wanted):
            self.peer.settimeout(until_silent or max(0.01, end - time.monotonic()))
            try:
                heard.append(self.peer.recv(65_536)[10:].hex())
            except TimeoutError:
                if until_silent is not None:
                    break
                raise Wrong(f"{wanted} in place of {heard}") from None
        return heard

    def transactions(self):
        return [(line["source"], line["seq"], line["state"]) for line in self.client.status() if line["kind"] == "transaction"]

    def refusals(self):
        return [line["name"] for line in self.client.status() if line["kind"] == "refusal"]

    def held(self):
        return [line["held"] for line in self.client.status() if line["kind"] == "remote"]


@contextlib.contextmanager
def ends(**named):
    both = Ends(**named)
    try:
        yield both
    finally:
        both.close()


@case
def a_reception_whose_eof_is_still_to_come():
    """What comes afterwards opens the reception anew: everything is asked for again, and the file arrives."""
    with ends() as both:
        both.send(metadata(1, 6, b"f"), file_data(1, 0, b"abc"))
        until(lambda: both.transactions() == [(2, 1, "active")], "the reception")
        both.restart()
        want(both.transactions(), [])
        both.send(file_data(1, 3, b"def"), end_of_file(1, FILE))
        both.hear(ACK, NAK)
        both.send(metadata(1, 6, b"f"), file_data(1, 0, b"abc"))
        both.hear(FINISHED)
        want((both.one.received() / "f").read_bytes(), FILE)


@case
def a_reception_whose_eof_was_acknowledged():
    """Nobody asks for what is missing: the server doesn't know the transaction, and the sender has nothing left to send."""
    with ends() as both:
        both.send(metadata(1, 6, b"f"), end_of_file(1, FILE))
        both.hear(ACK, NAK)
        both.restart()
        want((both.hear(until_silent=1), both.transactions()), ([], []))


@case
def a_file_that_was_stored():
    """Its sender, which wasn't told, sends its EOF again: then the whole file comes again, and replaces the first one."""
    with ends() as both:
        both.send(metadata(1, 6, b"f"), file_data(1, 0, FILE), end_of_file(1, FILE))
        both.hear(ACK, FINISHED)
        both.restart()
        both.send(end_of_file(1, FILE))
        both.hear(ACK, NAK)
        both.send(metadata(1, 6, b"f"), file_data(1, 0, FILE))
        both.hear(FINISHED)
        want((both.one.received() / "f").read_bytes(), FILE)


def finished(number):
    """A Finished PDU of a transaction of station 1: the file is complete and retained."""
    return bytes.fromhex("2800020301") + number.to_bytes(4, "big") + b"\x02\x05\x02"


@case
def a_file_that_was_sent():
    """Its Finished is refused, and acknowledged only once its lane has opened a later transaction."""
    with ends(lanes=1, users=("alice",)) as both:
        pathlib.Path("a").write_bytes(FILE)
        want(both.client.ask("put alice 0 2 2 a b"), ["ok", "txn 1 1"])
        both.hear("07", "04")
        both.restart()
        want(both.hear(until_silent=1), [])
        both.send(finished(1))
        until(lambda: both.refusals() == ["NoTransaction"], "the refusal")
        want(both.hear(until_silent=0.3), [])
        [ok, txn] = both.client.ask("put alice 0 2 2 a b")
        want((ok, int(txn.split()[2]) > 1), ("ok", True))
        both.send(finished(1))
        both.hear(FINISHED_ACK)
        until(lambda: sorted(both.refusals()) == ["NoTransaction", "OldTransaction"], "both refusals")


@case
def a_peer_that_begins_its_numbers_anew():
    """Its files are refused, though its EOF is acknowledged, until the server starts again."""
    with ends() as both:
        both.send(metadata(9, 6, b"f"), file_data(9, 0, FILE), end_of_file(9, FILE))
        both.hear(ACK, FINISHED)
        both.send(metadata(1, 6, b"g"), file_data(1, 0, FILE), end_of_file(1, FILE))
        both.hear(LATE_ACK)
        # the other worker may still read what came before the EOF
        until(lambda: both.refusals() == ["OldTransaction"], "the refusal")
        both.restart()
        both.send(metadata(1, 6, b"g"), file_data(1, 0, FILE), end_of_file(1, FILE))
        both.hear(FINISHED)
        want((both.one.received() / "g").read_bytes(), FILE)


@case
def a_link_that_was_held():
    """A hold is forgotten, unless the station's file says `hold`."""
    for options, held in (((), [False]), (("station.hold = true",), [True])):
        with ends(options=options) as both:
            want(both.client.ask("hold 2"), ["ok"])
            want(both.held(), [True])
            both.restart()
            want(both.held(), held)


@case
def files_that_waited():
    """The outbox is forgotten, and numbers continue above those that were given."""
    with ends(options=("station.hold = true", "sending.numbers = 'numbers'"), lanes=1, users=("alice",)) as both:
        pathlib.Path("a").write_bytes(FILE)
        want((both.client.ask("put alice 0 2 2 a b"), both.client.ask("send alice 2 2 a c")), (["ok", "txn 1 1"], ["queued 1"]))
        both.restart()
        want(both.client.ask("outbox"), [])
        [ok, txn] = both.client.ask("put alice 0 2 2 a b")
        want((ok, int(txn.split()[2]) > 1), ("ok", True))


run_cases("restarts")
