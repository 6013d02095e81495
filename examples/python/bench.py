#!/usr/bin/env python3
"""A test bench: an entity sends a file to a peer over a line that drops, doubles, reorders or damages datagrams.

usage: examples/python/bench.py [SEED]

Prints a row for each trouble: how many datagrams went, what both users received at the end, and what the peer stored. The
same seed prints the same table. Ends with status 1 if a stored file isn't the one that was sent.
"""

from __future__ import annotations

import heapq
import pathlib
import random
import sys
from dataclasses import dataclass, field

sys.path.insert(0, str(pathlib.Path(__file__).resolve().parents[2] / "python"))
from cfdp import Bundle, Done, Entity, Kind, Refusal, Timer  # noqa: E402

FILE = bytes((i * 31 + i // 256) % 256 for i in range(6000))
DELAY_MS = 20

CONFIGURATION = """
[entity]
id = {own}
id_octets = 1
seq_octets = 2
first = 1
put_lanes = 1
recv_lanes = 1
capacity = 256
segment = 512
[[user]]
name = "bench"
[[remote]]
id = {other}
address = "127.0.0.1:1"
user = "bench"
ack_ms = 300
nak_ms = 300
check_ms = 300
inactivity_ms = 20000
ack_limit = 8
nak_limit = 8
check_limit = 8
"""


@dataclass
class Station:
    """An entity with its timers, and the indications that its user received."""

    entity: Entity
    timers: dict = field(default_factory=dict)
    told: list[Bundle] = field(default_factory=list)
    stored: list[bytes] = field(default_factory=list)


class Bench:
    """Two stations, a line between them, and a clock that jumps to what is due next."""

    def __init__(self, trouble, seed: int):
        self.trouble, self.random = trouble, random.Random(seed)
        self.stations = [Station(Entity(CONFIGURATION.format(own=1 + at, other=2 - at))) for at in range(2)]
        self.now, self.sent, self.due, self.counter = 0, 0, [], 0
        self.pumps = None

    def at(self, ms: int, act) -> None:
        """Lets something happen later."""
        self.counter += 1
        heapq.heappush(self.due, (self.now + ms, self.counter, act))

    def send(self, to: int, datagram: bytes) -> None:
        self.sent += 1
        for delay, octets in self.trouble(self.random, datagram):
            self.at(DELAY_MS + delay, lambda octets=octets: self.tell(to, "deliver", octets))

    def set_timer(self, at: int, timer: Timer) -> None:
        timers, name = self.stations[at].timers, (timer.source, timer.seq, timer.kind)
        timers.pop(name, None)
        if timer.arms:
            timers[name] = timer
            self.at(timer.ms, lambda: self.expire(at, name, timer))

    def expire(self, at: int, name, timer: Timer) -> None:
        if self.stations[at].timers.get(name) is timer:
            del self.stations[at].timers[name]
            self.tell(at, "timer", timer)

    def carry_out(self, at: int, done: Done) -> None:
        """Sends what an event left, sets its timers, and stores its file."""
        station = self.stations[at]
        for octets in done.pdus:
            self.send(1 - at, octets)
        for timer in done.timers:
            self.set_timer(at, timer)
        if done.deposit:
            station.stored.append(station.entity.image(done.deposit).octets)
            self.tell(at, "stored", done.deposit, True)
        station.told += station.entity.bundles(0)
        if at == 0:
            self.pumps = (done.source, done.seq)

    def tell(self, at: int, event: str, *arguments) -> Done | None:
        """Passes an event; a refusal is what a station with a bad line has to live with."""
        try:
            done = getattr(self.stations[at].entity, event)(*arguments)
        except Refusal as refusal:
            for octets in refusal.pdus:
                self.send(1 - at, octets)
            return None
        self.carry_out(at, done)
        return done

    def run(self) -> None:
        sender = self.stations[0].entity
        self.carry_out(0, sender.put(0, 0, 2, b"orbit.bin", b"copy.bin", FILE, messages=(b"pass 12",)))
        for _ in range(20000):
            if self.pumps:
                key, self.pumps = self.pumps, None
                done = self.tell(0, "pump", *key)
                self.pumps = key if done and done.pdus else None
            elif self.due:
                self.now, _, act = heapq.heappop(self.due)
                act()
            else:
                return

    def close(self) -> None:
        for station in self.stations:
            station.entity.close()


# ---- troubles: for a datagram, what arrives and how much later


def none(_, datagram):
    return [(0, datagram)]


def drops(rng, datagram):
    return [] if rng.random() < 0.25 else [(0, datagram)]


def doubles(rng, datagram):
    return [(0, datagram)] * (2 if rng.random() < 0.5 else 1)


def reorders(rng, datagram):
    return [(rng.choice((0, 0, 60, 120)), datagram)]


def damages(rng, datagram):
    if rng.random() < 0.9:
        return [(0, datagram)]
    place = rng.randrange(len(datagram))
    return [(0, datagram[:place] + bytes([datagram[place] ^ 1 << rng.randrange(8)]) + datagram[place + 1 :])]


def all_of_it(rng, datagram):
    arrives = []
    for one in drops(rng, datagram):
        for two in doubles(rng, one[1]):
            arrives += [(delay, octets) for delay, _ in reorders(rng, two[1]) for _, octets in damages(rng, two[1])]
    return arrives


def ending(station: Station) -> str:
    """What a user received at the end."""
    for bundle in reversed(station.told):
        for told in reversed(bundle.indications):
            if told.kind == Kind.FINISHED:
                return f"{'complete' if told.delivery == 0 else 'incomplete'}, condition {told.condition}"
            if told.kind == Kind.ABANDONED:
                return f"abandoned, condition {told.condition}"
    return "nothing"


def main() -> int:
    seed, wrong = int(sys.argv[1]) if len(sys.argv) > 1 else 1, 0
    print(f"{'trouble':<10} {'datagrams':>9} {'ms':>6}  {'the sender was told':<26} {'the receiver was told':<26} stored")
    for trouble in (none, drops, doubles, reorders, damages, all_of_it):
        bench = Bench(trouble, seed)
        bench.run()
        sender, receiver = bench.stations
        stored = "nothing" if not receiver.stored else "the file" if receiver.stored == [FILE] else "ANOTHER FILE"
        wrong += stored == "ANOTHER FILE"
        name = trouble.__name__.replace("_", " ")
        print(f"{name:<10} {bench.sent:>9} {bench.now:>6}  {ending(sender):<26} {ending(receiver):<26} {stored}")
        bench.close()
    return 1 if wrong else 0


if __name__ == "__main__":
    sys.exit(main())
