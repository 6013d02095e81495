#!/usr/bin/env python3
"""Recordings of a running server's transactions say what happened: played with the same configuration, they give the indications of
the server's log, one by one, and the PDUs that were on the wire, octet by octet.

usage: tests/recorder.py SERVER REPLAY CTL

Each case has its own servers on loopback, in its own folder, and ends within a minute.
"""
import collections
import contextlib
import json
import os
import pathlib
import random
import subprocess
import sys
import time

from support import Link, Station, Wrong, case, configuration, free_port, linked, run_cases, station, until, want

SERVER, REPLAY, CTL = (os.path.abspath(path) for path in sys.argv[1:4])
USERS = ("alice", "bob")


class Wire(Link):
    """The link between two stations: it loses or changes datagrams by a rule, and keeps what each station sent."""

    def __init__(self, rule=None):
        super().__init__(room=8_000_000)
        self.rule = rule or (lambda way, octets: octets)
        self.sent = [[], []]

    def take(self, way, octets):
        self.sent[way].append(octets)
        passed = self.rule(way, octets)
        if passed is not None:
            self.give(way, passed)


def key_of(datagram):
    """The transaction of a datagram: its source and its number."""
    ids, numbers = (datagram[3] >> 4 & 7) + 1, (datagram[3] & 7) + 1
    return int.from_bytes(datagram[4 : 4 + ids], "big"), int.from_bytes(datagram[4 + ids : 4 + ids + numbers], "big")


def is_data(datagram):
    return bool(datagram[0] & 0x10)


def directive(datagram):
    """The code of a directive; None for File Data."""
    return None if is_data(datagram) else datagram[4 + 2 * ((datagram[3] >> 4 & 7) + 1) + (datagram[3] & 7) + 1]


def losing(share, seed):
    chance = random.Random(seed)
    return lambda way, octets: None if chance.random() < share else octets


@contextlib.contextmanager
def stations(rule=None, options=("record.which = 'all'",), text=None, workers=1, folder=None, rate=3_000_000, **around):
    """Two stations, 1 and 2, which log and record, over a link that follows a rule."""

    def start(place, port, peer):
        home = f"station{place + 1}"
        os.makedirs(f"{home}/scripts")
        words = (f"sending.rate = {rate}", f"log.file = '{home}/log'", f"record.folder = '{folder or home + '/scripts'}'", *options)
        made = text(place + 1, 2 - place, peer) if text else None
        return Station(SERVER, place + 1, port, 2 - place, peer, words, text=made, workers=workers, **{"lanes": 8, **around})

    with linked(Wire(rule), start) as (one, other, wire):
        for each in (one, other):
            each.client().close()
        yield one, other, wire


def scripts_of(one):
    return {tuple(int(number) for number in path.name.split(".")[:2]): path
            for path in pathlib.Path(one.home, "scripts").iterdir() if path.name.endswith(".script")}


def log_of(one):
    path = pathlib.Path(one.home, "log")
    lines = path.read_text().split("\n")[:-1] if path.exists() else []
    return [json.loads(line) for line in lines]


def hex_word(text):
    return text.encode().hex() or "-"


def told(event):
    """The line that a script prints for an indication of the log."""
    name = event["name"]
    words = {
        "Metadata-Recv": lambda: [event["origin"], event["size"], hex_word(event["file"]), hex_word(event["to"]), *event["messages"]],
        "File-Segment-Recv": lambda: [event["offset"], event["length"]],
        "Suspended": lambda: [event["condition"]],
        "Resumed": lambda: [event["progress"]],
        "Report": lambda: [event["phase"], event["progress"]],
        "Fault": lambda: [event["condition"], event["progress"]],
        "Abandoned": lambda: [event["condition"], event["progress"]],
        "Transaction-Finished": lambda: [event["condition"], event["delivery"], event["status"]],
    }.get(name, lambda: [])()
    return " ".join(str(word) for word in (event["user"], event["source"], event["seq"], name, *words))


def played(one, script):
    """What a script prints, played with a station's configuration."""
    done = subprocess.run([REPLAY, "--config", f"{one.home}/config", str(script)], capture_output=True, text=True, timeout=400)
    want((done.returncode, done.stderr), (0, ""))
    return done.stdout.splitlines()


def same_pdus(found, sent, what):
    """A script gives the PDUs that were sent. Those that answer a peer once the transaction has ended are no part of it: they are
    ACKs of a transaction that is terminated."""
    more, less = collections.Counter(found), collections.Counter(octets.hex() for octets in sent)
    late = [one for one in less - more if directive(bytes.fromhex(one)) != 6 or int(one[-1], 16) % 4 != 2]
    if more - less or late:
        raise Wrong(f"{what}: only in the script {list(more - less)[:3]}, only on the wire {late[:3]}")


def same_as_it_was(one, wire, way):
    """Each recording of a station gives, when it is played, what its log and the wire have of the transaction. A recording may be
    there before the log's last lines."""
    scripts = scripts_of(one)
    until(lambda: set(scripts) <= ends_of(one), "the ends in the log")
    log = log_of(one)
    for (source, seq), path in scripts.items():
        lines = played(one, path)
        want([line for line in lines if line.startswith(("refused", "none", "line"))], [])
        wanted = [told(event) for event in log if event["kind"] == "indication" and (event["source"], event["seq"]) == (source, seq)]
        want([line for line in lines if line.split(" ")[0] in USERS], wanted)
        sent = [octets for octets in wire.sent[way] if key_of(octets) == (source, seq)]
        same_pdus([line[4:] for line in lines if line.startswith("pdu ")], sent, path)
        heading = path.read_text().split("\n", 5)[:5]
        want([line[0] for line in heading], ["#"] * 5)
        want(heading[4], f"# {wanted[-1]}")
    return scripts


def recorder(one):
    """What a status says of recordings."""
    client = one.client()
    lines = [line for line in client.status() if line["kind"] == "recorder"]
    client.close()
    return lines[0]


def ends_of(one):
    return {(event["source"], event["seq"]) for event in log_of(one)
            if event["kind"] == "indication" and event["name"] in ("Transaction-Finished", "Abandoned")}


def all_recorded(both, wire, count, seconds=40):
    """Both ends of so many transactions end, each is recorded, and each recording is what happened."""
    for place, one in enumerate(both):
        until(lambda: len(ends_of(one)) >= count, f"{count} ends", seconds)
        until(lambda: set(scripts_of(one)) >= ends_of(one), f"{count} recordings, {recorder(one)}", seconds)
        want(set(scripts_of(one)), ends_of(one))
        want(len(same_as_it_was(one, wire, place)), count)


def put(one, words, size, name="a", seed=7):
    """Gives a file to the outbox of a station."""
    pathlib.Path(name).write_bytes(random.Random(seed).randbytes(size))
    client = one.client()
    want(client.ask(f"send {words}")[0].split()[0], "queued")
    client.close()


@case
def both_classes_and_closure():
    with stations() as (one, other, wire):
        for place, words in enumerate(("alice 2 2 a b", "bob 1 2 a c", "alice 1 2 a d closure")):
            put(one, words, 4_000)
            until(lambda: len(ends_of(other)) == place + 1, "its end")
        all_recorded((one, other), wire, 3)


@case
def datagrams_that_are_lost():
    with stations(losing(0.2, 5)) as (one, other, wire):
        put(one, "alice 2 2 a b", 20_000)
        all_recorded((one, other), wire, 1)


@case
def only_those_that_failed():
    """What is complete and retained is not recorded, unless all are."""
    with stations(options=()) as (one, other, wire):
        put(one, "alice 2 2 a b", 2_000)
        until(lambda: len(ends_of(one)) == len(ends_of(other)) == 1, "the end")
        put(one, "bob 1 2 a c", 2_000)
        until(lambda: len(scripts_of(one)) == 1, "the script of what was not reported")
        want(set(scripts_of(other)), set())
        same_as_it_was(one, wire, 0)


@case
def a_limit_of_the_sender():
    """Nobody acknowledges the EOF."""
    with stations(lambda way, octets: None if way == 1 else octets, limit=2) as (one, _, wire):
        put(one, "alice 2 2 a b", 2_000)
        until(lambda: len(scripts_of(one)) == 1, "the recording")
        want([path.read_text().split("\n")[4].split()[4:] for path in scripts_of(one).values()],
             [["Transaction-Finished", "1", "incomplete", "unreported"]])
        same_as_it_was(one, wire, 0)


@case
def a_limit_of_the_receiver():
    """What is asked for again never comes."""
    gone = lambda way, octets: None if way == 0 and is_data(octets) else octets
    with stations(gone, limit=2) as both:
        one, other, wire = both
        put(one, "alice 2 2 a b", 2_000)
        all_recorded((one, other), wire, 1)


@case
def a_checksum_that_differs():
    change = lambda way, octets: octets[:-1] + bytes([octets[-1] ^ 1]) if way == 0 and is_data(octets) else octets
    for words in ("alice 2 2 a b", "alice 1 2 a b closure"):
        with stations(change, limit=2) as (one, other, wire):
            put(one, words, 300)
            all_recorded((one, other), wire, 1)
        subprocess.run(["rm", "-rf", "station1", "station2"], check=True)


@case
def a_transaction_that_its_user_ends():
    """Cancelled at either end, suspended, resumed and reported on, and abandoned."""
    for place, requests in ((0, ("suspend", "report", "resume", "cancel")), (1, ("report", "cancel")), (1, ("abandon",)), (0, ("abandon",))):
        with stations(lambda way, octets: None if way == 0 and directive(octets) == 4 else octets, limit=60) as both:
            one, other, wire = both
            put(one, "alice 2 2 a b", 9_000)
            until(lambda: sum(is_data(octets) for octets in wire.sent[0]) >= 18, "its File Data")
            key = key_of(wire.sent[0][0])
            asked = both[place].client()
            for request in requests:
                want(asked.ask(f"{request} alice {key[0]} {key[1]}")[0], "ok")
                time.sleep(0.1)
            until(lambda: set(scripts_of(both[place])) == {key}, "the recording")
            same_as_it_was(both[place], wire, place)
        subprocess.run(["rm", "-rf", "station1", "station2"], check=True)


@case
def a_store_that_says_no():
    with stations() as (one, other, wire):
        other.received().rmdir()
        other.received().write_bytes(b"a file where a folder should be")
        for name, words in (("b", "alice 2 2 a b"), ("c", "bob 1 2 a c closure")):
            put(one, words, 2_000)
        all_recorded((one, other), wire, 2)
        want({path.read_text().split("\n")[4].split()[-1] for path in scripts_of(other).values()}, {"rejected"})


@case
def sixteen_at_once():
    """Eight files go each way, each in a lane of its own at both ends; some datagrams are lost."""
    with stations(losing(0.05, 3), workers=2, lanes=4, limit=60) as (one, other, wire):
        clients = [one.client(), other.client()]
        for place, client in enumerate(clients):
            want(client.ask(f"hold {2 - place}"), ["ok"])
            for count in range(8):
                name = f"file{place}{count}"
                put((one, other)[place], f"{USERS[count % 2]} 2 {2 - place} {name} to{name}", 6_000, name, count)
        for place, client in enumerate(clients):
            want(client.ask(f"release {2 - place}"), ["ok"])
        all_recorded((one, other), wire, 16)


@case
def a_large_file():
    """The recording of 16 MiB can be played; what is quadratic in its size would take an hour."""
    text = lambda number, remote, port: configuration(
        f"127.0.0.1:{port}", USERS, 2_000, 10, id=number, remote=remote, octets=4, capacity=1_024, segment=1_400, inactivity=30_000)
    with stations(text=text) as (one, other, wire):
        put(one, "alice 2 2 a b", 16_000_000)
        all_recorded((one, other), wire, 1, 400)
        script = next(iter(scripts_of(other).values()))
        played(other, script)
        key = ".".join(str(number) for number in key_of(wire.sent[0][0]))
        shown = other.ctl(CTL, "journal", key)
        want((shown.returncode, shown.stderr, shown.stdout == script.read_text()), (0, "", True))


@case
def the_command():
    """A transaction is printed while it runs and once it has ended; an unknown one is refused; other clients are answered meanwhile."""
    with stations(lambda way, octets: None if way == 0 and directive(octets) == 4 else octets, options=(), limit=60) as (one, other, wire):
        put(one, "alice 2 2 a b", 3_000)
        until(lambda: sum(is_data(octets) for octets in wire.sent[0]) >= 6, "its File Data")
        source, seq = key_of(wire.sent[0][0])
        client = other.client()
        until(lambda: len(client.ask(f"journal {source} {seq}")) > 8, "its events")
        lines = client.ask(f"journal {source} {seq}")
        want(lines[1], f"# transaction {source} {seq}: user alice receives from entity 1")
        want(lines[4], "# it has not ended")
        pathlib.Path("script").write_text("\n".join(lines) + "\n")
        want([line.split(" ")[3] for line in played(other, "script") if line.startswith("alice")][:1], ["Metadata-Recv"])
        want(client.ask("journal 1 77"), client.ask("trace 1 77"))
        want(client.ask("journal 1 77")[0].split()[0], "refused")
        want(client.ask("journal 1"), ["bad command", "journal: a transaction's sequence number is missing"])
        shown = one.ctl(CTL, "journal", f"{source}.{seq}")
        want((shown.returncode, shown.stdout.split("\n")[1]), (0, f"# transaction {source} {seq}: user alice sends to entity 2"))
        want(one.ctl(CTL, "journal", "1.x").returncode, 2)
        want(one.ctl(CTL, "journal", "1.77").returncode, 3)
        client.close()


@case
def the_standard_input():
    """A script is printed between the answers to the commands before and behind it."""
    os.makedirs("received")
    pathlib.Path("config").write_text(configuration(f"127.0.0.1:{free_port()}", USERS, 60_000, 1, inactivity=60_000))
    pathlib.Path("a").write_bytes(b"hello")
    run = subprocess.run([SERVER, "--config", "config", "--bind", f"127.0.0.1:{free_port()}", "--folder", "received"],
                         input="put alice 0 2 1 a b\njournal 2 4\ntrace 2 4\njournal 2 5\nquit\n", capture_output=True, text=True, timeout=90)
    lines = run.stdout.splitlines()
    want((run.returncode, lines[:2], lines[2][:2]), (0, ["ok", "txn 2 4"], "# "))
    want([line for line in lines if line.startswith(("set first", "file ", "put "))],
         ["set first 1", "file 68656c6c6f", "put alice 0 2 1 a b @"])
    want((lines[-2].split()[0], lines[-1].split()[0]), ("trace", "refused"))


@case
def the_oldest_ones_go():
    """At most two are kept; a file of another name stays; an earlier run's recordings count."""
    with stations(options=("record.which = 'all'", "record.most = 2")) as (one, other, wire):
        folder = pathlib.Path(one.home, "scripts")
        for name in ("notes.txt", "01.2.script", "1.2.script.bak"):
            (folder / name).write_text("mine")
        seen = []
        for place in range(4):
            put(one, "alice 2 2 a b", 500)
            until(lambda: len(ends_of(one)) == place + 1, "the end")
            seen.append((ends_of(one) - set(seen)).pop())
            until(lambda: seen[-1] in scripts_of(one), "the recording")
        until(lambda: {path.name for path in folder.iterdir()} == {"notes.txt", "01.2.script", "1.2.script.bak",
                                                                   *(f"{source}.{seq}.script" for source, seq in seen[-2:])}, "the two last")


@case
def a_folder_that_is_not_there():
    """It stops nothing, and is counted. The server makes it where it can; here a file has its name at first."""
    pathlib.Path("nowhere").write_text("a file")
    with stations(folder="nowhere") as (one, other, wire):
        put(one, "alice 2 2 a b", 500)
        until(lambda: recorder(one)["failed"] == 1, "the count")
        want(recorder(one), {"kind": "recorder", "kept": 0, "missed": 0, "failed": 1})
        os.remove("nowhere")
        os.makedirs("nowhere")
        put(one, "alice 2 2 a b", 500)
        until(lambda: recorder(one)["kept"] == 1, "the recording")
        want(len(list(pathlib.Path("nowhere").iterdir())), 1)


def recording_station():
    """Station 2 alone, whose recordings go into `scripts`."""
    return Station(SERVER, 2, free_port(), 1, free_port(), ("record.folder = 'scripts'",), lanes=2, timer=60_000, limit=1, users=USERS,
                   inactivity=60_000)


def at_once(*lines):
    """What a station says to these commands, one right after the other, until it has quit."""
    pathlib.Path("a").write_bytes(b"hello")
    one = recording_station()
    try:
        client = one.client()
        said = [answer for line in lines for answer in client.ask(line)]
        want(one.run.wait(60), 0)
        return said
    finally:
        one.close()


@case
def the_last_one_at_the_end():
    """What ends just before `quit` is recorded, also where nobody else reads what users receive."""
    lines = at_once("put alice 0 2 1 a b", "abandon alice 2 4", "quit")
    want((lines, os.listdir("scripts")), (["ok", "txn 2 4", "ok", "ok"], ["2.4.script"]))
    want(pathlib.Path("scripts/2.4.script").read_text().split("\n")[4], "# alice 2 4 Abandoned 15 5")


@case
def a_folder_whose_disk_hangs():
    """It holds up nothing but the `journal` of the client that asked for it."""
    os.makedirs("scripts")
    os.mkfifo("scripts/2.4.script.part")
    pathlib.Path("a").write_bytes(b"hello")
    one = recording_station()
    try:
        waiting, other = one.client(), one.client()
        want(waiting.ask("put alice 0 2 1 a b"), ["ok", "txn 2 4"])
        want(waiting.ask("abandon alice 2 4"), ["ok"])
        waiting.stream.sendall(b"journal 2 4\n")
        want(other.ask("trace 2 4")[0].split()[0], "trace")
        want(other.ask("status") is not None, True)
        want(os.listdir("scripts"), ["2.4.script.part"])
    finally:
        one.close()


@case
def what_still_waits_at_the_end():
    """What isn't recorded two seconds after `quit`, since the disk hung, is left out, and the server ends."""
    os.makedirs("scripts")
    os.mkfifo("scripts/2.4.script.part")
    pathlib.Path("a").write_bytes(b"hello")
    one = recording_station()
    try:
        client = one.client()
        for lane, seq in ((0, 4), (1, 6)):
            want(client.ask(f"put alice {lane} 2 1 a b"), ["ok", f"txn 2 {seq}"])
            want(client.ask(f"abandon alice 2 {seq}"), ["ok"])
        want(client.ask("quit"), ["ok"])
        time.sleep(6)
        want(one.run.poll(), None)
        with open("scripts/2.4.script.part", "rb") as part:
            want(part.read().startswith(b"# "), True)
        want((one.run.wait(60), os.listdir("scripts")), (0, ["2.4.script"]))
    finally:
        one.close()


@case
def numbers_that_are_used_up():
    """A transaction that the server opens to use up its number is none that failed."""
    users = ("alice", *(f"user{number}" for number in range(1, 8)))
    pathlib.Path("a").write_bytes(b"abc")
    home = "scripts"
    os.makedirs(home)
    with station(SERVER, options=("remote[2].lanes = 2", f"record.folder = '{home}'"), lanes=1, users=users) as (one, _):
        client = one.client()
        want(client.ask("follow"), ["ok"])
        for user, count in (("user6", 1), ("alice", 2)):
            want(client.ask(f"send {user} 1 2 a b"), [f"queued {count}"])
            until(lambda: recorder(one)["kept"] == count, "its recording")
        client.status()
        want([event["count"] for event in client.events if event["kind"] == "skipped"], [1])
        want((recorder(one)["kept"], recorder(one)["failed"], recorder(one)["missed"]), (2, 0, 0))
        client.close()
    want(len(os.listdir(home)), 2)


run_cases("recorder")
