#!/usr/bin/env python3
"""What a station meets: two servers with files of numbers, logs and trees send each other files through their outboxes, over a link
that loses, doubles, delays and reorders datagrams. Links are held and released, transactions are cancelled, suspended, resumed and
abandoned, clients follow and don't read, junk comes to every socket, and now and then a server is killed and starts again.

At the end, once nothing is under way any more:
- each file that was told as retained, to its sender or by its store, is there, octet by octet;
- no transaction number was used twice, over all runs of a server;
- each transaction ended once in a run, and in a run that wasn't killed each one that began has ended;
- no log has an event missing or twice;
- no server's memory grew.

usage: tests/soak.py SERVER [SECONDS [SEED]]    (600 seconds where none are given)
"""
import heapq
import json
import os
import pathlib
import random
import shutil
import socket
import sys
import tempfile
import time

from support import Client, Link, Station, Wrong, configuration, free_port

SERVER = os.path.abspath(sys.argv[1])
SECONDS = float(sys.argv[2]) if len(sys.argv) > 2 else 600.0
SEED = int(sys.argv[3]) if len(sys.argv) > 3 else 7
USERS = ("alice", "bob")
# Has the C library return freed memory at once, so that a server's memory is what it uses, without free memory that is
# kept for each of its threads.
AROUND = dict(os.environ, MALLOC_TRIM_THRESHOLD_="0", MALLOC_TOP_PAD_="0")
# How long what is under way may take to its end once nothing is begun any more: some times what all limits allow.
QUIET = 240


class BadLink(Link):
    """A link between two stations. Of a hundred datagrams it loses seven, doubles five, and delays five for up to 0.3 seconds."""

    def __init__(self, seed):
        super().__init__()
        self.chance = random.Random(seed)
        self.late = []
        self.old = [b""] * 64
        self.passed = self.lost = self.doubled = self.delayed = 0
        self.is_perfect = False

    def patience(self):
        return 0.05 if not self.late else max(0, min(0.05, self.late[0][0] - time.monotonic()))

    def turn(self):
        while self.late and self.late[0][0] <= time.monotonic():
            _, _, way, octets = heapq.heappop(self.late)
            self.give(way, octets)

    def take(self, way, octets):
        self.passed += 1
        self.old[self.passed % 64] = octets
        drawn = 1.0 if self.is_perfect else self.chance.random()
        if drawn < 0.07:
            self.lost += 1
        elif drawn < 0.12:
            self.delayed += 1
            heapq.heappush(self.late, (time.monotonic() + self.chance.random() * 0.3, self.passed, way, octets))
        else:
            self.give(way, octets)
            if drawn < 0.17:
                self.doubled += 1
                self.give(way, octets)


def content(name):
    """The octets of a file, by its name."""
    draws = random.Random(name)
    return draws.randbytes(draws.choice((0, 1, 511, 512, 5_000, 60_000, 200_000)))


class End:
    """One station: its runs, a client of its running server, and the files that it sent."""

    def __init__(self, place, ports, link):
        self.place, self.ports, self.link = place, ports, link
        self.runs = 0
        self.sent = 0
        self.most = [0, 0]
        self.idle = []
        self.is_held = False
        self.suspended = set()
        self.station = None
        self.begin()

    def begin(self):
        """Starts the server. Each run has its own log, and the file of numbers stays."""
        own, other = self.place + 1, 2 - self.place
        self.runs += 1
        home = f"station{own}"
        os.makedirs(home, exist_ok=True)
        text = configuration(f"127.0.0.1:{self.link.ports[self.place]}", USERS, id=own, remote=other, octets=4, put_lanes=4, recv_lanes=8,
                             capacity=1_024, segment=1_400, ack=300, nak=300, check=300, inactivity=4_000,
                             ack_limit=12, nak_limit=12, check_limit=12)
        words = (f"sending.numbers = '{home}/numbers'", f"log.file = '{home}/log{self.runs}'", "store.layout = 'tree'",
                 "store.existing = 'keep'", "sending.rate = 4000000", "store.retry_s = 5", f"record.folder = '{home}/records'")
        os.makedirs(f"{home}/records", exist_ok=True)
        self.station = Station(SERVER, own, self.ports[self.place], other, 0, words, text=text, workers=2, around=AROUND)
        self.client = self.station.client()
        self.idle, self.is_held, self.suspended = [], False, set()

    def kill(self):
        for one in (self.client, *self.idle):
            one.close()
        self.station.close()

    def ask(self, command):
        answer = self.client.ask(command)
        if answer is None:
            raise Wrong(f"station {self.place + 1} ended at {command}: {self.station.run.poll()}")
        return answer

    def send(self, draws):
        """Gives a new file to the outbox, in either class, with or without closure."""
        self.sent += 1
        name = f"from{self.place + 1}-{self.runs}-{self.sent}"
        pathlib.Path(name).write_bytes(content(name))
        words = f"send {draws.choice(USERS)} {draws.choice((1, 2, 2, 2))} {2 - self.place} {name} {draws.choice(('', 'deep/', 'a/b/'))}{name}"
        answer = self.ask(words + draws.choice(("", " closure")))[0]
        if not answer.startswith(("queued", "refused")):
            raise Wrong(f"{words}: {answer}")

    def under_way(self):
        return [line for line in self.client.status() if line["kind"] == "transaction" and line["state"] != "ended"]

    def meddle(self, draws):
        """Asks for something of a transaction that runs."""
        running = self.under_way()
        if running:
            one = draws.choice(running)
            verb = draws.choice(("cancel", "suspend", "suspend", "abandon", "report", "report"))
            self.ask(f"{verb} {one['user']} {one['source']} {one['seq']}")
            if verb == "suspend":
                self.suspended.add((one["user"], one["source"], one["seq"]))

    def resume(self):
        for user, source, seq in self.suspended:
            self.ask(f"resume {user} {source} {seq}")
        self.suspended = set()

    def hold(self, is_held):
        self.ask(f"{'hold' if is_held else 'release'} {2 - self.place}")
        self.is_held = is_held

    def look(self, is_later):
        """Notes the server's memory, in KiB."""
        for line in pathlib.Path(f"/proc/{self.station.run.pid}/status").read_text().splitlines():
            if line.startswith("VmRSS"):
                self.most[is_later] = max(self.most[is_later], int(line.split()[1]))


def junk(end, draws, link):
    """Octets that nobody asked for, at the socket for datagrams and at that for clients; also what was sent before."""
    with socket.socket(socket.AF_INET, socket.SOCK_DGRAM) as one:
        for _ in range(20):
            octets = draws.choice(link.old) if draws.random() < 0.5 else draws.randbytes(draws.randrange(100))
            if draws.random() < 0.3:
                octets = octets[: draws.randrange(len(octets) + 1)]
            one.sendto(octets, ("127.0.0.1", end.ports[end.place]))
    with Opened(end.station.path) as client:
        client.stream.sendall(draws.randbytes(300))


class Opened(Client):
    def __enter__(self):
        return self

    def __exit__(self, *_):
        self.close()


def act(end, draws, link):
    """One thing of those that a station meets."""
    drawn = draws.random()
    if drawn < 0.60:
        end.send(draws)
    elif drawn < 0.70:
        end.meddle(draws)
    elif drawn < 0.80:
        end.resume()
    elif drawn < 0.86:
        end.hold(not end.is_held)
    elif drawn < 0.91:
        junk(end, draws, link)
    elif drawn < 0.94 and len(end.idle) < 4:
        idle = Client(end.station.path)
        idle.stream.sendall(b"follow 100\n")
        end.idle.append(idle)
    elif drawn < 0.95:
        end.kill()
        end.begin()


def quieten(ends, link):
    """Lets what is under way come to its end."""
    link.is_perfect = True
    for end in ends:
        end.resume()
        end.hold(False)
    deadline = time.monotonic() + QUIET
    while time.monotonic() < deadline:
        for end in ends:
            for one in end.under_way():
                if one["state"] == "suspended":
                    end.ask(f"resume {one['user']} {one['source']} {one['seq']}")
        if not any(end.under_way() or end.ask("outbox") for end in ends):
            return
        time.sleep(0.3)
    for end in ends:
        stuck = [(one["role"], one["source"], one["seq"], one["state"]) for one in end.under_way()]
        if stuck or end.ask("outbox"):
            raise Wrong(f"still under way at station {end.place + 1}: {stuck[:5]}, {len(end.ask('outbox'))} files wait")


def events_of(end, run):
    """The events of a run's log; a kill may cut the last line."""
    lines = pathlib.Path(f"station{end.place + 1}/log{run}").read_text().split("\n")
    events = [json.loads(line) for line in lines[:-1]]
    numbers = [event["number"] for event in events]
    if numbers != list(range(1, len(numbers) + 1)):
        raise Wrong(f"the log of run {run} of station {end.place + 1} has events missing or twice")
    return events


ENDS = ("Transaction-Finished", "Abandoned")


def check_run(end, run, events, used):
    """What holds of one run; gives the names under which files were told as retained, with the file of each."""
    begun, ended, names, told = set(), {}, {}, []
    for event in events:
        if event["kind"] == "put":
            names[event["source"], event["seq"]] = event["to"]
        if event["kind"] == "stored" and event["status"] == "retained":
            told.append(event["as"])
        if event["kind"] != "indication":
            continue
        key = (event["source"], event["seq"])
        if event["name"] == "Transaction":
            if key in used:
                raise Wrong(f"station {end.place + 1} used number {key} twice")
            used.add(key)
        begun.add(key)
        if event["name"] in ENDS:
            ended[key] = ended.get(key, 0) + 1
    if any(count > 1 for count in ended.values()):
        raise Wrong(f"a transaction of run {run} of station {end.place + 1} ended twice")
    if events and events[-1]["kind"] == "end" and begun != set(ended):
        raise Wrong(f"transactions of run {run} of station {end.place + 1} never ended: {sorted(begun - set(ended))[:5]}")
    to_peer = [names[event["source"], event["seq"]] for event in events
               if event["kind"] == "indication" and event["name"] == "Transaction-Finished" and event.get("status") == "retained"
               and (event["source"], event["seq"]) in names]
    return told, to_peer


def check(ends):
    """Compares logs and folders; gives how many files were told as retained."""
    count = 0
    for end in ends:
        used = set()
        own, other = (pathlib.Path(f"station{number}/received") for number in (end.place + 1, 2 - end.place))
        for run in range(1, end.runs + 1):
            told, to_peer = check_run(end, run, events_of(end, run), used)
            for place in told:
                count += 1
                if (own / place).read_bytes() != content(pathlib.PurePath(place).name.split(".")[0]):
                    raise Wrong(f"{own / place} is another file than was sent")
            for name in to_peer:
                count += 1
                if (other / name).read_bytes() != content(pathlib.PurePath(name).name):
                    raise Wrong(f"{other / name} was told as retained, and is another file")
    return count


def live(ends, link, draws):
    begin = time.monotonic()
    while time.monotonic() < begin + SECONDS:
        for end in ends:
            act(end, draws, link)
            end.look(time.monotonic() > begin + SECONDS / 2)
        time.sleep(0.04)


def main():
    home = tempfile.mkdtemp()
    os.chdir(home)
    draws = random.Random(SEED)
    link = BadLink(SEED)
    ports = [free_port(), free_port()]
    ends = [End(place, ports, link) for place in range(2)]
    link.join(*ports)
    try:
        live(ends, link, draws)
        quieten(ends, link)
        for end in ends:
            if (end.ask("quit"), end.station.run.wait(90)) != (["ok"], 0):
                raise Wrong(f"station {end.place + 1} ended with status {end.station.run.returncode}")
        count = check(ends)
        for end in ends:
            first, later = end.most
            if SECONDS >= 300 and later > first * 1.25 + 4_096:
                raise Wrong(f"the memory of station {end.place + 1} grew from {first} to {later} KiB")
        if not count:
            raise Wrong("no file was told as retained")
        print(f"{sum(end.sent for end in ends)} files, {sum(end.runs for end in ends)} runs, {link.passed} datagrams, {link.lost} lost, "
              f"{link.doubled} doubled, {link.delayed} late: {count} times a file was told as retained, and each is whole")
    except Wrong as why:
        print(f"soak, seed {SEED}: {why}", file=sys.stderr)
        keep = os.environ.get("SOAK_KEEP")
        if keep:
            shutil.copytree(home, keep, dirs_exist_ok=True)
        sys.exit(1)
    finally:
        for end in ends:
            end.station.close()
        link.close()
        os.chdir("/")
        shutil.rmtree(home, ignore_errors=True)


main()
