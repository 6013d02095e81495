"""The loop that runs an entity over a datagram socket: it delivers what comes, sends what is left, tells the time, stores received
files and takes the indications.

    loop = Loop(entity, socket, store)
    loop.put(0, 0, 1, b"image.bin", b"image.bin", octets)
    loop.run()

PDUs go to the addresses of the entity's configuration. `store` gets each received file (an `Image`), and returns whether it keeps it.
Copy this file, and change what your station needs.
"""
from __future__ import annotations

import select
import socket
import threading
import time
from collections.abc import Callable

from cfdp import Deposit, Done, Entity, Image, Indication, Refusal

AT_ONCE = 16
"""PDUs of files that leave before the socket is looked at again."""
LONGEST = 50
"""Milliseconds after which `stop` is looked at."""


def now() -> int:
    """The time in milliseconds, on a clock that never goes back."""
    return time.monotonic_ns() // 1_000_000


def address_of(text: str) -> tuple[str, int]:
    host, _, port = text.partition(":")
    return host, int(port)


class Loop:
    """An entity and its socket. The entity keeps its timers, and says whose turn it is to send."""

    def __init__(self, entity: Entity, line: socket.socket, store: Callable[[Image], bool]):
        self.entity, self.line, self.store = entity, line, store
        self.peers = {remote.id: address_of(remote.address) for remote in entity.remotes}
        self.told: list[Indication] = []
        self.stopped = threading.Event()
        self.tick()

    def put(self, user: int, lane: int, destination: int, source_name: bytes, destination_name: bytes, file: bytes, **named) -> None:
        """Sends a file; its PDUs leave while the loop runs."""
        self.carry_out(self.entity.put(user, lane, destination, source_name, destination_name, file, **named))

    def stop(self) -> None:
        """Ends the loop, from any thread."""
        self.stopped.set()

    def run(self) -> None:
        """Runs until `stop`."""
        while not self.stopped.is_set():
            if select.select([self.line], [], [], self.wait() / 1_000)[0]:
                octets, _ = self.line.recvfrom(65_536)
                self.tick()
                self.tell(lambda: self.entity.deliver(octets))
            self.tick()
            self.send_files()
            for user in range(self.entity.users):
                self.told += [said for bundle in self.entity.bundles(user) for said in bundle.indications]

    def wait(self) -> int:
        """For how many milliseconds there is nothing to do but to receive."""
        deadline = self.entity.next_deadline()
        if self.entity.next_pump():
            return 0
        return LONGEST if deadline is None else max(0, min(deadline - now(), LONGEST))

    def tell(self, event: Callable[[], Done | None]) -> Done | None:
        """Passes an event and carries out what it left; None if the entity refused it, or there was none."""
        try:
            done = event()
        except Refusal as why:
            self.send(why.pdus, why.destinations)
            return None
        if done:
            self.carry_out(done)
        return done

    def carry_out(self, done: Done) -> None:
        """Sends the PDUs of an event, and stores its file."""
        self.send(done.pdus, done.destinations)
        if done.deposit:
            self.keep(done.deposit)

    def send(self, pdus: tuple[bytes, ...], destinations: tuple[int, ...]) -> None:
        for octets, peer in zip(pdus, destinations):
            if peer in self.peers:
                self.line.sendto(octets, self.peers[peer])

    def keep(self, deposit: Deposit) -> None:
        kept = self.store(self.entity.image(deposit))
        self.tell(lambda: self.entity.stored(deposit, kept))

    def tick(self) -> None:
        """Tells the entity the time, until no more timer has expired."""
        while self.tell(lambda: self.entity.tick(now())):
            pass

    def send_files(self) -> None:
        """Sends the next PDUs of the files under way."""
        for _ in range(AT_ONCE):
            txn = self.entity.next_pump()
            if txn is None:
                return
            self.tell(lambda txn=txn: self.entity.pump(*txn))
