#!/usr/bin/env python3
"""Measures how many files at once cross loopback between stations, by their lanes and users, and prints a table in Markdown.

usage: many.py SERVER [--loss PERCENT] [--workers N] [--rate MB] [--only FIRST:LAST]

Each case has its own stations and a relay on each link, which counts parts of files that leave twice. Its time is compared with the
larger of two: the octets at the link's rate, and writing and flushing the same files one after the other. With --loss the cases of
class 2 run twice, the second time with a relay that loses so many datagrams of a hundred. --rate limits all links to so many
megabytes a second, for a server that takes less than the cases send. Each case ends by itself: after four minutes what hasn't
arrived counts as missing.
"""
import argparse
import contextlib
import dataclasses
import multiprocessing
import os
import pathlib
import random
import select
import shutil
import socket
import sys
import tempfile
import threading
import time

TOP = pathlib.Path(__file__).resolve().parent.parent
sys.path.insert(0, str(TOP / "tests"))
from support import Running, free_port, part_of, station_text  # noqa: E402

SECONDS = 240
MB = 1_000_000
SEGMENT = 1_400
# With loss a case may take so many times as long.
LOSS_BAR = 3


@dataclasses.dataclass
class Case:
    """Stations and the files that are sent: station 1 sends `sizes` to each of its peers, and gets as many back if `both`."""
    lanes: int
    users: int
    recv_lanes: int
    service: int
    sizes: list
    rate: int = 20 * MB
    both: bool = False
    peers: int = 1
    closure: bool = False
    example: str = ""

    def name(self):
        least, most = min(self.sizes), max(self.sizes)
        files = f"{len(self.sizes)} of {told(least)}" + (f" to {told(most)}" if most != least else "")
        ways = (f", to {self.peers} peers" if self.peers > 1 else "") + (", both ways" if self.both else "")
        return (f"{self.example or f'{self.lanes}, {self.users}, {self.recv_lanes}'} | {self.service}{' closure' if self.closure else ''}"
                f" | {files}{ways} | {self.rate / MB:g}")

    def link_seconds(self):
        """How long the files of one link and one direction take at the rate, with the headers of their PDUs."""
        octets = sum(size + 14 * -(-size // SEGMENT) + 80 for size in self.sizes)
        return octets * (self.peers if self.peers > 1 else 1) / self.rate


def told(size):
    for unit, octets in (("MiB", 1 << 20), ("MB", MB), ("kB", 1_000)):
        if size >= octets and size % octets == 0:
            return f"{size // octets} {unit}"
    return f"{size} octets"


def mixed(count, most, seed=1):
    """Sizes of files from 1 kB to `most`, small ones more often."""
    draws = random.Random(seed)
    return [1_000, most] + [round(1_000 * (most / 1_000) ** draws.random()) for _ in range(count - 2)]


def cases():
    """All cases: lanes of each user, users, receiving lanes, class, sizes."""
    yield Case(8, 2, 8, 2, [400_000] * 16, rate=MB)
    yield Case(8, 2, 8, 1, [400_000] * 16, rate=MB)
    yield Case(4, 2, 8, 1, [1_000] * 500)
    yield Case(4, 2, 8, 1, [MB] * 24)
    yield Case(4, 16, 2, 2, [1_000] * 100)
    yield Case(1, 8, 2, 1, [0] * 100)
    yield Case(4, 2, 8, 2, [1_000] * 500)
    for service in (2, 1):
        yield Case(2, 2, 2, service, [10_000] + [50_000] * 6, rate=MB, example="entity.toml")
    for service in (2, 1):
        yield Case(8, 1, 8, service, mixed(100, 4 << 20), both=True, example="station.toml")
    yield from others()


def others():
    rows = [
        (1, 1, 1, [1_000] * 100), (1, 1, 8, [1_000] * 100), (2, 1, 8, [100_000] * 40), (3, 1, 8, [20_000] * 60), (5, 1, 8, [20_000] * 60),
        (8, 1, 1, [5_000] * 60), (8, 1, 3, [5_000] * 60), (8, 1, 5, [5_000] * 60), (8, 4, 8, [10_000] * 64), (16, 1, 8, [10_000] * 64),
        (16, 16, 8, [2_000] * 256), (32, 1, 8, [1_000] * 200), (32, 16, 8, [1_000] * 500), (32, 3, 7, [3_000] * 150), (4, 3, 8, [3_000] * 120),
        (1, 16, 1, [1_000] * 64), (2, 5, 6, mixed(80, 200_000)), (8, 1, 8, [0] * 1_000), (4, 2, 8, [4 << 20] * 8),
    ]
    for place, (lanes, users, recv_lanes, sizes) in enumerate(rows):
        for service in (2, 1):
            yield Case(lanes, users, recv_lanes, service, sizes, both=place % 4 == 1)
    for sizes in ([1_000] * 64, [300_000] * 16):
        yield Case(4, 2, 8, 1, sizes, closure=True)
    for service in (2, 1):
        yield Case(4, 2, 8, service, [20_000] * 40, peers=3)
        yield Case(3, 3, 4, service, [5_000] * 40, peers=4, both=True)
        yield Case(8, 2, 8, service, mixed(60, MB), both=True)


# ---- the link

class Link:
    """A relay between two stations in a process of its own, which may lose datagrams, and counts parts that leave twice."""

    def __init__(self, loss, seed):
        self.sockets = [socket.socket(socket.AF_INET, socket.SOCK_DGRAM) for _ in range(2)]
        for one in self.sockets:
            one.setsockopt(socket.SOL_SOCKET, socket.SO_RCVBUF, 4_000_000)
            one.bind(("127.0.0.1", 0))
        self.ports = [one.getsockname()[1] for one in self.sockets]
        self.loss, self.seed = loss, seed
        self.near, self.far = multiprocessing.Pipe()
        self.process = None

    def join(self, first, second):
        self.targets = [("127.0.0.1", second), ("127.0.0.1", first)]
        self.process = multiprocessing.get_context("fork").Process(target=self.work, daemon=True)
        self.process.start()

    def work(self):
        chance, parts, twice = random.Random(self.seed), set(), 0
        while True:
            ready = select.select([*self.sockets, self.far], [], [], 5.0)[0]
            if self.far in ready:
                self.far.send(twice)
                return
            for one in ready:
                way = self.sockets.index(one)
                for octets in waiting(one):
                    part = part_of(octets)
                    if part is not None:
                        twice += part in parts
                        parts.add(part)
                    if chance.random() >= self.loss:
                        self.sockets[1 - way].sendto(octets, self.targets[way])

    def ended(self):
        """How many parts left twice."""
        if self.process is None or not self.process.is_alive():
            return None
        self.near.send("end")
        twice = self.near.recv() if self.near.poll(10) else None
        self.process.join(5)
        return twice

    def close(self):
        if self.process is not None and self.process.is_alive():
            self.process.kill()
            self.process.join()
        for one in self.sockets:
            one.close()


def waiting(one):
    """At most 64 datagrams that wait at a socket."""
    for _ in range(64):
        try:
            yield one.recv(65_536, socket.MSG_DONTWAIT)
        except BlockingIOError:
            return


def lost_in_buffers(ports):
    """How many datagrams the system dropped at these ports, since their buffers were full."""
    lost = 0
    for line in pathlib.Path("/proc/net/udp").read_text().splitlines()[1:]:
        words = line.split()
        if int(words[1].split(":")[1], 16) in ports:
            lost += int(words[-1])
    return lost


# ---- the stations

def text(case, number, peers):
    """A configuration of a station with its peers and their ports."""
    if case.example:
        lines = (TOP / "examples" / case.example).read_text().splitlines()
        (peer, port), = peers
        changed = {"id = 2": f"id = {number}", "id = 1": f"id = {peer}"}
        return "\n".join(f'address = "127.0.0.1:{port}"' if line.startswith("address") else changed.get(line, line) for line in lines)
    words = [f"[entity]\nid = {number}\nid_octets = 1\nseq_octets = 4\nfirst = 1\nput_lanes = {case.lanes}",
             f"recv_lanes = {case.recv_lanes}\ncapacity = 1024\nsegment = {SEGMENT}"]
    words += [f'[[user]]\nname = "user{user}"' for user in range(case.users)]
    for place, (peer, port) in enumerate(peers):
        words.append(f'[[remote]]\nid = {peer}\naddress = "127.0.0.1:{port}"\nuser = "user{place % case.users}"')
        words.append("ack_ms = 500\nnak_ms = 200\ncheck_ms = 1000\ninactivity_ms = 60000\nack_limit = 100\nnak_limit = 250\ncheck_limit = 100")
    return "\n".join(words)


class Ground(Running):
    """A station of a case, with the files that it sends and those that it has to receive."""

    def __init__(self, server, case, number, port, peers, workers):
        self.number, self.port = number, port
        self.folder = pathlib.Path(f"received{number}")
        self.folder.mkdir()
        told = (f"sending.rate = {case.rate}",)
        made = station_text(text(case, number, peers), f"127.0.0.1:{port}", str(self.folder), f"control{number}", told, workers)
        pathlib.Path(f"station{number}.toml").write_text(made)
        self.users = {"entity.toml": ["alice", "bob"], "station.toml": ["ops"]}.get(case.example) or [f"user{n}" for n in range(case.users)]
        super().__init__(server, f"station{number}.toml", f"control{number}")
        self.orders, self.files = [], {}

    def order(self, other, case, peer_of):
        """Notes the files of a case that go to another station."""
        for place, size in enumerate(case.sizes):
            name = f"file{self.number}-{other.number}-{place}"
            octets = random.Random(name).randbytes(size)
            pathlib.Path(name).write_bytes(octets)
            other.files[name] = octets
            user = self.users[place % len(self.users)]
            self.orders.append(f"send {user} {case.service} {peer_of} {name} {name}{' closure' if case.closure else ''}")

    def send(self):
        """Gives all its files to the outbox, which has room for 1,024."""
        client = self.client()
        for line in self.orders:
            while client.ask(line)[0] == "refused OutboxFull":
                time.sleep(0.01)
        client.close()

    def arrived(self):
        return sum(1 for entry in os.scandir(self.folder) if not entry.name.startswith("."))

    def is_whole(self):
        found = {path.name: path.read_bytes() for path in self.folder.iterdir() if not path.name.startswith(".")}
        return sum(found.get(name) == octets for name, octets in self.files.items())


class Watch:
    """Looks at what is parked, each tenth of a second."""

    def __init__(self, grounds):
        self.clients = [one.client() for one in grounds]
        self.octets = self.datagrams = 0
        self.is_over = False
        self.thread = threading.Thread(target=self.work, daemon=True)
        self.thread.start()

    def work(self):
        while not self.is_over:
            for client in self.clients:
                lines = [line for line in client.status() if line["kind"] == "parked"]
                self.octets = max(self.octets, sum(line["octets"] for line in lines))
                self.datagrams = max(self.datagrams, sum(line["datagrams"] for line in lines))
            time.sleep(0.1)

    def close(self):
        self.is_over = True
        self.thread.join(60)


@contextlib.contextmanager
def network(server, case, loss, workers):
    """Station 1 and its peers, each over a link of its own."""
    home, old = tempfile.mkdtemp(), os.getcwd()
    os.chdir(home)
    links, grounds = [], []
    try:
        links = [Link(loss, peer) for peer in range(case.peers)]
        ports = [free_port() for _ in range(case.peers + 1)]
        numbers = [2 + peer for peer in range(case.peers)]
        grounds.append(Ground(server, case, 1, ports[0], list(zip(numbers, (link.ports[0] for link in links))), workers))
        for place, number in enumerate(numbers):
            links[place].join(ports[0], ports[1 + place])
            grounds.append(Ground(server, case, number, ports[1 + place], [(1, links[place].ports[1])], workers))
        yield grounds, links
    finally:
        for one in grounds:
            one.close()
        for link in links:
            link.close()
        os.chdir(old)
        shutil.rmtree(home, ignore_errors=True)


def flush_seconds(sizes):
    """How long it takes to write and flush these files, one after the other, as a server stores them."""
    with tempfile.TemporaryDirectory() as home:
        begun = time.monotonic()
        folder = os.open(home, os.O_RDONLY)
        for place, size in enumerate(sizes):
            with open(f"{home}/part", "wb") as file:
                file.write(bytes(size))
                file.flush()
                os.fsync(file.fileno())
            os.rename(f"{home}/part", f"{home}/{place}")
            os.fsync(folder)
        os.close(folder)
        return time.monotonic() - begun


@dataclasses.dataclass
class Result:
    whole: int
    files: int
    seconds: float
    datagrams: int
    octets: int
    dropped: int
    twice: int
    skipped: int
    buffers: int
    others: list


def others_refused(client):
    return [f"{line['name']} {line['count']}" for line in client.status() if line["kind"] == "refusal"]


def is_ended(client):
    return all(line["state"] == "ended" for line in client.status() if line["kind"] == "transaction")


def run(server, case, loss, workers):
    with network(server, case, loss, workers) as (grounds, links):
        first, rest = grounds[0], grounds[1:]
        for other in rest:
            first.order(other, case, other.number)
            if case.both:
                other.order(first, case, 1)
        clients = [one.client() for one in grounds]
        for client in clients:
            client.ask("follow")
        watch = Watch(grounds)
        begun = time.monotonic()
        senders = [threading.Thread(target=one.send, daemon=True) for one in grounds if one.orders]
        for one in senders:
            one.start()
        while any(one.arrived() < len(one.files) for one in grounds) and time.monotonic() < begun + SECONDS:
            time.sleep(0.01)
        seconds = time.monotonic() - begun
        end = time.monotonic() + 30
        while not all(is_ended(client) for client in clients) and time.monotonic() < end:
            time.sleep(0.1)
        watch.close()
        dropped = sum(line["dropped"] for client in clients for line in client.status() if line["kind"] == "parked")
        skipped = sum(event["count"] for client in clients for event in client.events if event["kind"] == "skipped")
        buffers = lost_in_buffers({port for link in links for port in link.ports} | {one.port for one in grounds})
        refused = sorted({word for client in clients for word in others_refused(client)})
        return Result(sum(one.is_whole() for one in grounds), sum(len(one.files) for one in grounds), seconds, watch.datagrams,
                      watch.octets, dropped, sum(link.ended() or 0 for link in links), skipped, buffers, refused)


HEAD = """| Lanes, users, receiving lanes | Class | Files | MB/s | Whole | Seconds | Link | Flushing | Times | Parked at most | Dropped | Sent twice | Skipped | Lost in buffers |
|---|---|---|---|---|---|---|---|---|---|---|---|---|---|"""


def row(case, one, link, flush):
    whole = "all" if one.whole == one.files else f"**{one.whole} of {one.files}**"
    parked = f"{one.datagrams} ({told(one.octets)})" if one.datagrams else "0"
    return (f"| {case.name()} | {whole} | {one.seconds:.2f} | {link:.2f} | {flush:.2f} | {one.seconds / max(link, flush):.1f} | {parked} | "
            f"{one.dropped} | {one.twice} | {one.skipped} | {one.buffers} |")


def measure(server, case, loss, workers):
    """Runs a case; prints its row, and gives whether all is well."""
    link = case.link_seconds()
    # all stations store on one disk
    flush = flush_seconds(case.sizes * case.peers * (2 if case.both else 1))
    one = run(server, case, 0.0, workers)
    print(row(case, one, link, flush), flush=True)
    is_well = one.whole == one.files and one.dropped == 0 and (case.service == 1 or one.twice == 0 or workers > 1)
    if not is_well:
        print(f"  refused: {', '.join(one.others) or 'nothing'}", file=sys.stderr, flush=True)
    if not loss:
        return is_well
    bad = run(server, case, loss / 100, workers)
    times = bad.seconds / one.seconds
    print(row(case, bad, link, flush).rstrip("|") + f"| with loss, {times:.1f} times as long |", flush=True)
    return is_well and bad.whole == bad.files and times <= LOSS_BAR


def main():
    words = argparse.ArgumentParser(description=__doc__, formatter_class=argparse.RawDescriptionHelpFormatter)
    words.add_argument("server")
    words.add_argument("--loss", type=float, default=0.0)
    words.add_argument("--workers", type=int, default=1)
    words.add_argument("--rate", type=float, default=1_000.0)
    words.add_argument("--only", default="1:")
    given = words.parse_args()
    server = os.path.abspath(given.server)
    first, last = (int(word) if word else None for word in given.only.split(":"))
    chosen = list(cases())[first - 1 : last]
    print(HEAD, flush=True)
    bad = 0
    for case in chosen:
        if given.loss and case.service == 1:
            continue
        case.rate = min(case.rate, round(given.rate * MB))
        bad += not measure(server, case, given.loss, given.workers)
    print(f"\n{len(chosen)} cases, {bad} of them not as they should be")
    sys.exit(1 if bad else 0)


if __name__ == "__main__":
    main()
