#!/usr/bin/env python3
"""Two stations under commands: an outbox, links that are held, and limits of single links.

usage: tests/station.py SERVER CTL

Each case has its own servers on loopback, in its own folder, and ends within two minutes.
"""
import contextlib
import hashlib
import json
import os
import pathlib
import random
import socket
import subprocess
import sys
import time

from support import (
    Station, Wrong, ack_of_finished, case, configuration, end_of_file, file_data, free_port, in_class_2, library, metadata, pair, run_cases,
    socket_of_peer, station, until, want,
)

SERVER, CTL = (os.path.abspath(path) for path in sys.argv[1:3])
BRIDGE = pathlib.Path(__file__).resolve().parent.parent / "examples" / "packet_bridge.py"


def stations(loss=0.0, first=(), second=(), **named):
    """Two stations, 1 and 2, over a link."""
    return pair(SERVER, (first, second), loss, **named)


def write(name, octets):
    pathlib.Path(name).write_bytes(octets)
    return hashlib.sha256(octets).hexdigest()


def digest(path):
    return hashlib.sha256(path.read_bytes()).hexdigest()


def octets_of(number, size):
    return random.Random(number).randbytes(size)


def is_kept(event):
    return event.get("name") == "Transaction-Finished" and event.get("status") == "retained" and event.get("condition") == 0


@case
def a_hundred_files():
    """A hundred files through eight lanes by one command, which waits for all of them."""
    with stations(lanes=8, users=("alice",), limit=100) as (one, other, _):
        names = {f"file{n}": write(f"file{n}", octets_of(n, 20_000 + n)) for n in range(100)}
        one.client().close()
        other.client().close()
        done = one.ctl(CTL, "send", "--user", "alice", "--to", "2", "--wait", *names)
        want((done.returncode, done.stderr), (0, ""))
        want({path.name: digest(path) for path in other.received().iterdir()}, names)
        want(one.client().ask("outbox"), [])


@case
def contact_windows():
    """A contact of one second in every four, with loss: all files arrive whole, no limit ends one, and nothing is sent
    while the links are held."""
    with stations(loss=0.05, first=("station.hold = true",), second=("station.hold = true",), limit=3) as (one, other, relay):
        names = {f"file{n}": write(f"file{n}", octets_of(n, 30_000)) for n in range(6)}
        ground, craft = one.client(), other.client()
        want(ground.ask("follow"), ["ok"])
        for name in names:
            want(ground.ask(f"send alice 2 2 {name} {name}")[0].split()[0], "queued")
        held = [(time.monotonic(), None)]
        kept = set()
        for _ in range(12):
            time.sleep(3)
            held[-1] = (held[-1][0], time.monotonic())
            want((ground.ask("release 2"), craft.ask("release 1")), (["ok"], ["ok"]))
            time.sleep(1)
            want((ground.ask("hold 2"), craft.ask("hold 1")), (["ok"], ["ok"]))
            held.append((time.monotonic(), None))
            kept |= {event["seq"] for event in ground.events if is_kept(event)}
            if len(kept) == len(names):
                break
        bad = [event for event in ground.events if event.get("name") in ("Fault", "Abandoned")
               or event.get("name") == "Transaction-Finished" and not is_kept(event)]
        want(bad, [])
        want(len(kept), len(names))
        want({path.name: digest(path) for path in other.received().iterdir()}, names)
        for begin, end in held:
            # the relay may be a second late
            inside = [moment for way in relay.passed for moment in way
                      if begin + 1 < moment < (end or time.monotonic()) - 0.01]
            want(inside, [])
        remote = [line for line in ground.status() if line["kind"] == "remote"][0]
        want((remote["held"], "held_since" in remote), (True, True))


@case
def held_at_the_start():
    """With `hold` nothing is sent until the link is released; then the first PDU arrives at once, long before a timer."""
    with station(SERVER, options=("station.hold = true",), timer=60_000) as (one, peer):
        client = one.client()
        write("a", b"abc")
        want(client.ask("put alice 0 2 2 a b")[0], "ok")
        peer.settimeout(0.5)
        try:
            peer.recv(65_536)
            raise Wrong("something left by a link that is held")
        except TimeoutError:
            pass
        peer.settimeout(20)
        begun = time.monotonic()
        want(client.ask("release 2"), ["ok"])
        want(len(peer.recv(65_536)) > 0, True)
        want(time.monotonic() - begun < 10, True)
        want((client.ask("hold 3"), client.ask("release 3")), (["refused UnknownRemote"], ["refused UnknownRemote"]))


@case
def an_outbox_that_is_full():
    """At most 1,024 files wait; dropping one makes room."""
    with station(SERVER, options=("station.hold = true",)) as (one, _):
        client = one.client()
        want(client.ask("follow"), ["ok"])
        write("a", b"abc")
        for number in range(1, 1_025):
            want(client.ask("send alice 2 2 a b"), [f"queued {number}"])
        want(client.ask("send alice 2 2 a b"), ["refused OutboxFull"])
        want((client.ask("drop 9"), client.ask("drop 9")), (["ok"], ["refused NotQueued"]))
        want(client.wait_event(lambda event: event["kind"] == "unsent", "the end of a file")["why"], "dropped")
        want(client.ask("send alice 2 2 a b"), ["queued 1025"])
        lines = [json.loads(line) for line in client.ask("outbox")]
        want(len(lines), 1_024)
        want([lines[0][key] for key in ("kind", "number", "user", "class", "destination", "file", "to")],
             ["queued", 1, "alice", 2, 2, "a", "b"])
        want([line["number"] for line in client.status() if line["kind"] == "queued"], [line["number"] for line in lines])


@case
def files_that_can_not_be_sent():
    """A file that is missing when its turn comes is reported by an event, and the next one is sent."""
    with stations(lanes=1) as (one, other, _):
        client = one.client()
        other.client().close()
        want(client.ask("follow"), ["ok"])
        write("there", b"abc")
        for words in ("2 2 gone x", "2 2 there b", "2 9 there c", "2 2 there d"):
            want(client.ask(f"send alice {words}")[0].split()[0], "queued")
        first = client.wait_event(lambda event: event["kind"] == "unsent", "the first that isn't sent")
        want((first["queued"], first["why"], first["file"]), (1, "read fault", "gone"))
        put = client.wait_event(lambda event: event["kind"] == "put", "a put")
        want((put["queued"], put["to"]), (2, "b"))
        second = client.wait_event(lambda event: event["kind"] == "unsent" and event["queued"] == 3, "the second")
        want(second["why"].split()[0], "refused")
        client.wait_event(lambda event: event["kind"] == "put" and event["queued"] == 4, "the last put")
        until(lambda: sorted(path.name for path in other.received().iterdir()) == ["b", "d"], "both files")
        time.sleep(2)
        want((client.ask("outbox"), kinds_put(client)), ([], [(2, "b"), (4, "d")]))
        want(client.ask("put alice 0 2 9 there e"), ["refused 25 UnknownRemote"])
        want(len([event for event in client.events if event["kind"] == "put"]), 2)


def readings(client):
    return sorted(line["file"] for line in client.status() if line["kind"] == "reading")


def kinds_put(client):
    return [(event["queued"], event["to"]) for event in client.events if event["kind"] == "put" and "queued" in event]


@case
def files_that_take_long():
    """A file that takes long to read delays only the client that waits for it, and the status shows it meanwhile."""
    around = {**os.environ, "LD_PRELOAD": library("slow_files")}
    with station(SERVER, around=around) as (one, _):
        patient, other = one.client(), one.client()
        want(other.ask("follow"), ["ok"])
        for name in ("first.slow", "second.slow", "third.slow", "quick"):
            write(name, b"abc")
        patient.stream.sendall(b"put alice 0 2 2 first.slow a\n")
        until(lambda: readings(other) == ["first.slow"], "the reading of the first")
        want(other.ask("put alice 1 2 2 quick b")[0], "ok")
        want(readings(other), ["first.slow"])
        want([other.ask(f"send alice 2 2 {name} {name}") for name in ("second.slow", "third.slow", "quick")],
             [["queued 1"], ["queued 2"], ["queued 3"]])
        until(lambda: readings(other) == ["first.slow", "second.slow"], "the reading of the second")
        want([json.loads(line)["number"] for line in other.ask("outbox")], [1, 2, 3])
        want((other.ask("drop 1"), other.ask("drop 1")), (["ok"], ["refused NotQueued"]))
        write("first.slow.go", b"")
        want(patient.answer()[0], "ok")
        for name in ("second.slow.go", "third.slow.go"):
            write(name, b"")
        until(lambda: other.ask("outbox") == [], "the end of the outbox")
        until(lambda: other.status() and kinds_put(other) == [(2, "third.slow"), (3, "quick")], "both Puts")
        want(readings(other), [])
        want([event["why"] for event in other.events if event["kind"] == "unsent"], ["dropped"])


def log_of(client):
    return next(line for line in client.status() if line["kind"] == "log")


@case
def a_log_on_a_disk_that_hangs():
    """While the log's disk doesn't answer, commands are answered and files arrive; once it does, the log has all events."""
    around = {**os.environ, "LD_PRELOAD": library("slow_files")}
    with station(SERVER, options=("log.file = 'log.slow'",), around=around) as (one, peer):
        client = one.client()
        until(lambda: log_of(client)["failing"], "a log that takes longer than a second")
        want(client.ask("reopen"), ["refused LogFault"])
        for datagram in (metadata(8, 3, b"file"), file_data(8, 0, b"abc"), end_of_file(8, b"abc")):
            peer.sendto(datagram, ("127.0.0.1", one.port))
        until(lambda: (one.received() / "file").exists(), "a file meanwhile")
        want((log_of(client)["failing"], log_of(client)["written"]), (True, 0))
        write("log.slow.go", b"")
        until(lambda: client.ask("reopen") == ["ok"], "the log")
        until(lambda: log_of(client)["written"] == client.status()[0]["events"], "its events")
        want((log_of(client)["failing"], log_of(client)["lost"]), (False, 0))
    lines = pathlib.Path("log.slow").read_text().splitlines()
    want([json.loads(line)["number"] for line in lines], list(range(1, len(lines) + 1)))


@case
def an_end_whose_waking_datagram_is_lost():
    """A server ends within two seconds or so although the datagram that wakes its workers is lost."""
    around = {**os.environ, "LD_PRELOAD": library("lost_wakes")}
    took = []
    for _ in range(3):
        with station(SERVER, around=around) as (one, _):
            client = one.client()
            want(client.ask("trace 2 1"), ["refused 1 NoTransaction"])
            time.sleep(0.2)
            begun = time.monotonic()
            want((client.ask("quit"), one.run.wait(40)), (["ok"], 0))
            took.append(time.monotonic() - begun)
    want(min(took) < 3, True)


def is_quiet(relay, way, seconds=1):
    """Whether nothing passes a relay for a while."""
    passed = len(relay.passed[way])
    time.sleep(seconds)
    return len(relay.passed[way]) == passed


@case
def a_transfer_that_is_suspended_and_resumed():
    """Nothing of a suspended file leaves until its user resumes it; another user may do neither."""
    octets = os.urandom(100_000)
    write("file", octets)
    with stations(first=("sending.rate = 20000",)) as (one, other, relay):
        client = one.client()
        number = client.ask("put alice 0 2 2 file file")[1].split()[2]
        states = lambda: [line["state"] for line in client.status() if line["kind"] == "transaction"]
        want((client.ask(f"suspend bob 1 {number}"), client.ask(f"suspend alice 1 {number}")), (["refused 24 NotYours"], ["ok"]))
        want(states(), ["suspended"])
        until(lambda: is_quiet(relay, 0), "silence")
        want((states(), (other.received() / "file").exists()), (["suspended"], False))
        want((client.ask(f"resume bob 1 {number}"), client.ask(f"resume alice 1 {number}")), (["refused 24 NotYours"], ["ok"]))
        until(lambda: (other.received() / "file").exists(), "the file")
        want((other.received() / "file").read_bytes() == octets, True)


@case
def a_bundle_that_is_larger_than_what_may_wait_for_the_log():
    """One datagram closes 30,000 gaps, which is a bundle of as many indications: each of them is in the log."""
    size = 60_000
    with station(SERVER, options=("log.file = 'log'",), workers=1) as (one, peer):
        client = one.client()
        at = ("127.0.0.1", one.port)
        peer.sendto(metadata(8, size, b"file"), at)
        for offset in range(1, size, 2):
            peer.sendto(file_data(8, offset, b"x"), at)
            if offset % 400 == 1:
                until(lambda: client.status()[0]["counters"]["datagrams_in"] >= offset // 2 + 2, "its parts", 60)
        peer.sendto(file_data(8, 0, b"x" * size), at)
        until(lambda: client.status()[0]["events"] > 59_000, "the bundle")
        log = lambda: next(line for line in client.status() if line["kind"] == "log")
        until(lambda: log()["written"] == client.status()[0]["events"], "the log")
        want((log()["lost"], log()["failing"]), (0, False))
    lines = pathlib.Path("log").read_text().splitlines()
    want([json.loads(line)["number"] for line in lines], list(range(1, len(lines) + 1)))


@case
def a_put_behind_many_answers():
    """What was answered at a link's limit holds a file back for a second at most."""
    with station(SERVER, options=("remote[2].rate = 20000",), workers=1) as (one, peer):
        client = one.client()
        at = ("127.0.0.1", one.port)
        closing = end_of_file(8, b"abc")
        for count in range(8_000):
            peer.sendto(bytes([closing[0] & ~4]) + closing[1:], at)
            if count % 200 == 199:
                until(lambda: client.status()[0]["counters"]["datagrams_in"] >= count, "the copies")
                want(all(peer.recv(65_536) for _ in range(100)), True)
        want(client.status()[0]["counters"]["octets_out"] > 60_000, True)
        write("file", b"abc")
        begun = time.monotonic()
        want(client.ask("put alice 0 1 2 file file")[0], "ok")
        while peer.recv(65_536)[4:5] != b"\x01" or time.monotonic() - begun > 10:
            pass
        want(time.monotonic() - begun < 4, True)


@case
def a_peer_that_speaks_for_another():
    """A PDU of entity 2 from the address of entity 3 is taken where sources are known, and dropped where they are strict."""
    with socket.socket(socket.AF_INET, socket.SOCK_DGRAM) as third:
        third.bind(("127.0.0.1", 0))
        for option, refused in (("station.sources = 'known'", 0), ("station.sources = 'own'", 1)):
            with socket.socket(socket.AF_INET, socket.SOCK_DGRAM) as second:
                second.bind(("127.0.0.1", 0))
                text = configuration(f"127.0.0.1:{second.getsockname()[1]}", ("alice",), 300, 10, id=1, remote=2, octets=4, lanes=4)
                other = text[text.index("[[remote]]"):].replace("id = 2", "id = 3")
                other = other.replace(str(second.getsockname()[1]), str(third.getsockname()[1]))
                port = free_port()
                one = Station(SERVER, 1, port, 2, 0, (option,), text=text + other, workers=1)
                try:
                    client = one.client()
                    third.sendto(metadata(8, 3, b"file"), ("127.0.0.1", port))
                    until(lambda: client.status()[0]["counters"]["datagrams_in"] == 1, "the datagram")
                    until(lambda: client.status()[0]["counters"]["refused"] == refused, "its refusal")
                    second.sendto(metadata(9, 3, b"file"), ("127.0.0.1", port))
                    until(lambda: any(line.get("seq") == 9 for line in client.status()), "the transaction")
                    want(client.status()[0]["counters"]["refused"], refused)
                finally:
                    one.close()


@case
def any_port_of_a_known_host():
    """Where hosts are known, a datagram from another port of a peer's host is taken, and one from another host is dropped."""
    with socket.socket(socket.AF_INET, socket.SOCK_DGRAM) as elsewhere, socket.socket(socket.AF_INET, socket.SOCK_DGRAM) as stranger:
        elsewhere.bind(("127.0.0.1", 0))
        stranger.bind(("127.0.0.2", 0))
        for option, refused in (("station.sources = 'hosts'", 1), ("station.sources = 'known'", 2)):
            port, peer_port = free_port(), free_port()
            text = configuration(f"127.0.0.1:{peer_port}", ("alice",), 300, 10, id=1, remote=2, octets=4, lanes=4)
            one = Station(SERVER, 1, port, 2, 0, (option,), text=text, workers=1)
            try:
                client = one.client()
                for sender, number in ((stranger, 8), (elsewhere, 9)):
                    sender.sendto(metadata(number, 3, b"file"), ("127.0.0.1", port))
                until(lambda: client.status()[0]["counters"]["datagrams_in"] == 2, "both datagrams")
                until(lambda: client.status()[0]["counters"]["refused"] == refused, "the refusals")
                want([line["seq"] for line in client.status() if line["kind"] == "transaction"], [9] if refused == 1 else [])
            finally:
                one.close()


@case
def nothing_overtakes():
    """Many workers hand in the datagrams of a lane in the order in which these came: no whole file of class 2 draws a NAK."""
    octets = bytes(range(256)) * 2
    for workers in (4, 16):
        with station(SERVER, workers=workers, timer=10_000) as (one, peer):
            one.client().close()
            naks = 0
            for first in range(1, 401, 8):
                waiting = set(range(first, first + 8))
                for seq in sorted(waiting):
                    for datagram in (metadata(seq, 512, b"n%d" % seq), file_data(seq, 0, octets[:256]), file_data(seq, 256, octets[256:]),
                                     end_of_file(seq, octets)):
                        peer.sendto(in_class_2(datagram), ("127.0.0.1", one.port))
                while waiting:
                    reply = peer.recv(2_048)
                    seq, directive = int.from_bytes(reply[5:9], "big"), reply[10]
                    naks += directive == 8
                    if directive == 5 and seq in waiting:
                        peer.sendto(ack_of_finished(seq), ("127.0.0.1", one.port))
                        waiting.discard(seq)
            want((workers, naks), (workers, 0))
            want(len(list(one.received().iterdir())), 400)


@case
def reads_that_fail_for_a_while():
    """Workers whose reads fail pause and don't spin; once reads succeed again, files arrive."""
    around = {**os.environ, "LD_PRELOAD": library("failing_reads"), "FAILING": os.path.abspath("failing"),
              "FAILED": os.path.abspath("failed")}
    write("failing", b"")
    write("file", b"x" * 1000)
    with stations(around=around) as (one, other, _):
        failed = lambda: os.path.getsize("failed") if os.path.exists("failed") else 0
        until(lambda: failed() >= 40, "failed reads")
        # four workers, each of which pauses for a tenth of a second by now
        before, begun = failed(), time.monotonic()
        time.sleep(2)
        want((failed() - before <= 44 * (time.monotonic() - begun), other.client().status()[0]["counters"]["failed_reads"] > 0), (True, True))
        os.remove("failing")
        want(one.client().ask("put alice 0 2 2 file file")[0], "ok")
        until(lambda: (other.received() / "file").exists(), "the file")


@case
def a_log_that_ends_within_a_line():
    """What a power cut left of a line is closed, so the first event of the next run can be read."""
    write("log", b'{"at":"2026-')
    with station(SERVER, options=("log.file = 'log'", "log.commands = false")) as (one, _):
        want((one.client().ask("quit"), one.run.wait(60)), (["ok"], 0))
    with station(SERVER, options=("log.file = 'log'", "log.commands = false")) as (one, _):
        want((one.client().ask("quit"), one.run.wait(60)), (["ok"], 0))
    lines = pathlib.Path("log").read_text().splitlines()
    want((lines[0], [json.loads(line)["kind"] for line in lines[1:]]), ('{"at":"2026-', ["start", "end"] * 2))


@case
def users_take_turns():
    """A user with many files doesn't delay another."""
    with stations(lanes=1, first=("sending.rate = 200000", "station.hold = true")) as (one, other, _):
        client = one.client()
        other.client().close()
        want(client.ask("follow"), ["ok"])
        write("a", octets_of(1, 20_000))
        for n in range(10):
            client.ask(f"send alice 2 2 a a{n}")
        client.ask("send bob 2 2 a b")
        client.ask("release 2")
        puts = []
        client.wait_event(lambda event: event["kind"] == "put" and (puts.append(event["user"]) or event["user"] == "bob"), "bob's file")
        want(len(puts) <= 3, True)


# With four octets for numbers, two users and two lanes, each lane has this number left and no other.
LAST = 1_073_741_823


@case
def lanes_without_numbers():
    """A file waits for a busy lane where the idle one has used up its numbers, and fails once no lane can have any left."""
    with station(SERVER, lanes=2, timer=60_000, first=LAST) as (one, _):
        client = one.client()
        want(client.ask("follow"), ["ok"])
        write("a", b"abc")
        numbers = [(2 * LAST + lane) * 2 for lane in (0, 1)]
        for lane in (0, 1):
            want(client.ask(f"put alice {lane} 2 2 a b"), ["ok", f"txn 1 {numbers[lane]}"])
        want([line.get("notice") for line in client.status() if line["kind"] == "transaction"], ["last-numbers"] * 2)
        want(client.ask("send alice 2 2 a c"), ["queued 1"])
        want(client.ask(f"abandon alice 1 {numbers[0]}"), ["ok"])
        time.sleep(1.5)
        want([json.loads(line)["number"] for line in client.ask("outbox")], [1])
        want(client.ask(f"abandon alice 1 {numbers[1]}"), ["ok"])
        unsent = client.wait_event(lambda event: event["kind"] == "unsent", "the file's end")
        want((unsent["queued"], unsent["why"]), (1, "refused 9 SeqExhausted"))
        want(client.ask("outbox"), [])


@case
def names_in_quotes():
    """Quoted names may have any octets; without quotes a word is read as always."""
    with stations() as (one, other, _):
        client = one.client()
        other.client().close()
        want(client.ask("follow"), ["ok"])
        write('a "b"\\', b"abc")
        want(client.ask(r'send "alice" 2 2 "a \"b\"\\" "c \x22d\x22"'), ["queued 1"])
        until(lambda: [path.name for path in other.received().iterdir()] == ['c "d"'], "the file")
        write("plain", b"abc")
        names = [bytes(octet for octet in range(first, first + 64) if octet) for first in range(0, 256, 64)]
        for name in names:
            word = "".join(f"\\x{octet:02x}" for octet in name)
            want(client.ask(f'put alice 1 1 2 plain "{word}"')[0], "ok")
            put = client.wait_event(lambda event: event["kind"] == "put" and event.get("queued") is None
                                    and name in (bytes.fromhex(event.get("to_hex", "")), event.get("to", "").encode()), "its put")
            client.events.remove(put)
            until(lambda: all(line["state"] == "ended" for line in client.status()
                              if line["kind"] == "transaction" and line["seq"] == put["seq"]), "its end")
        for line in ('send alice 2 2 "a b', 'send alice 2 2 "a"b c', r'put alice 0 2 2 "\x2" c', 'send alice 2 2 "" c'):
            want(client.ask(line)[0], "bad command")


@case
def limits_of_links():
    """Octets to an entity keep to its own limit, whatever the limit of the rest; an unknown entity can't have one."""
    with station(SERVER, options=("remote[2].rate = 20000", "sending.rate = 1000000000")) as (one, peer):
        client = one.client()
        write("a", octets_of(1, 40_000))
        begun = time.monotonic()
        want(client.ask("put alice 0 1 2 a b")[0], "ok")
        octets = 0
        while octets < 40_000:
            octets += len(peer.recv(65_536))
        want(1.5 < time.monotonic() - begun < 30, True)


@case
def a_server_that_is_killed():
    """A client that waits for files of a server that goes away ends within five seconds, with status 1."""
    with station(SERVER, options=("station.hold = true",)) as (one, _):
        one.client().close()
        write("a", b"abc")
        waiting = subprocess.Popen([CTL, "--control", one.path, "send", "--user", "alice", "--to", "2", "--wait", "a"],
                                   stdout=subprocess.PIPE, stderr=subprocess.PIPE)
        client = one.client()
        until(lambda: client.ask("outbox"), "the file in the outbox")
        client.close()
        one.run.kill()
        begun = time.monotonic()
        want(waiting.wait(40), 1)
        want(time.monotonic() - begun < 20, True)
        waiting.stdout.close()
        waiting.stderr.close()


def is_bound(port):
    """Whether a socket of this machine has a port."""
    return any(line.split()[1].endswith(f":{port:04X}") for line in pathlib.Path("/proc/net/udp").read_text().splitlines()[1:])


def packet(apid, pdu):
    """A telemetry packet with a secondary header of ten octets."""
    return (0x0800 | apid).to_bytes(2, "big") + b"\xc0\0" + (10 + len(pdu) - 1).to_bytes(2, "big") + bytes(10) + pdu


@case
def a_bridge_for_packets():
    """The example of a bridge carries PDUs in packets both ways. It fills in headers, and leaves out packets of others."""
    with socket_of_peer() as peer, contextlib.ExitStack() as ending:
        listen, packets = free_port(), free_port()
        one = Station(SERVER, 1, free_port(), 2, listen, options=("station.sources = 'known'",))
        ending.callback(one.close)
        words = ["--station", f"127.0.0.1:{one.port}", "--listen", f"127.0.0.1:{listen}", "--peer", "127.0.0.1:%d" % peer.getsockname()[1],
                 "--packets", f"127.0.0.1:{packets}", "--head", "1fe7c00000000000", "--strip", "16", "--apid", "2020"]
        bridge = subprocess.Popen([sys.executable, BRIDGE, *words])
        ending.callback(bridge.wait)
        ending.callback(bridge.kill)
        until(lambda: is_bound(listen) and is_bound(packets), "the bridge")
        client = one.client()
        write("a", b"abc")
        want(client.ask("put alice 0 1 2 a b")[0], "ok")
        # the header with its count and its length, then the transaction's Metadata, File Data and EOF
        want([peer.recv(65_536).hex() for _ in range(3)], [
            "1fe7c00000150000" "24000a0301000000080207000000000301610162",
            "1fe7c00100120000" "3400070301000000080200000000616263",
            "1fe7c00200150000" "24000a0301000000080204006162630000000003"])
        for pdu in (metadata(1, 3, b"x"), file_data(1, 0, b"abc"), end_of_file(1, b"abc")):
            for octets in (packet(7, pdu), packet(2_020, pdu)[:-1], packet(2_020, pdu)):
                peer.sendto(octets, ("127.0.0.1", packets))
        until(lambda: (one.received() / "x").exists(), "the file")
        counters = client.status()[0]["counters"]
        want((counters["datagrams_in"], counters["refused"]), (3, 0))


run_cases("stations")
