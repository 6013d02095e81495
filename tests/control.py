#!/usr/bin/env python3
"""A server with a control socket serves its clients: each gets its answers in order, whatever other clients do.

usage: tests/control.py SERVER

Each case has its own server on loopback, in its own folder, and ends within a minute.
"""
import contextlib
import json
import os
import pathlib
import select
import socket
import stat
import subprocess
import sys
import threading
import time

from support import (
    EOF, FILE_DATA, METADATA, Client, Running, Wrong, case, configuration, fill, free_port, in_own_mounts, run_cases,
    small_disk, station_text, until, want,
)

SERVER = os.path.abspath(sys.argv[1])
SEATS = 16


class Server(Running):
    def __init__(self, port=None, options=(), path="control"):
        self.port = port or free_port()
        os.makedirs("received", exist_ok=True)
        self.peer = free_port()
        file = f"station{self.port}.toml"
        text = configuration(f"127.0.0.1:{self.peer}", ("alice", "bob"))
        pathlib.Path(file).write_text(station_text(text, f"127.0.0.1:{self.port}", "received", path, options))
        self.socket = socket.socket(socket.AF_INET, socket.SOCK_DGRAM)
        super().__init__(SERVER, file, path, start_new_session=True)

    def clients_sit(self):
        """How many clients have a seat, this one included; all seats if there is none for this one."""
        client = self.client()
        lines = client.ask("status")
        client.close()
        return json.loads(lines[0])["clients"] if lines else SEATS

    def send(self, *datagrams):
        for datagram in datagrams:
            self.socket.sendto(datagram, ("127.0.0.1", self.port))

    def ended(self):
        try:
            status = self.run.wait(90)
        except subprocess.TimeoutExpired:
            raise Wrong("it did not end within 90 seconds") from None
        return status, self.run.stdout.read().decode() + self.run.stderr.read().decode()

    def refuses(self):
        """The status and the first line of a server that can't start."""
        status, text = self.ended()
        return status, text.splitlines()[0]

    def quits(self):
        client = self.client()
        want(client.ask("quit"), ["ok"])
        want(client.line(), None)
        want(self.ended(), (0, ""))
        want(os.path.exists(self.path), False)


@contextlib.contextmanager
def server(**named):
    one = Server(**named)
    try:
        yield one
    finally:
        one.close()
        one.socket.close()


@case
def without_standard_input():
    """The server has its own session and no input, and keeps running; only its owner may use the socket."""
    with server() as one:
        client = one.client()
        want(stat.S_IMODE(os.stat("control").st_mode), 0o600)
        want(client.ask("trace 1 9"), ["refused 1 NoTransaction"])
        want(client.ask("take alice"), ["refused TakenByEvents"])
        want(client.ask("follow x"), ["bad command", 'follow: "x" is not a number of events, or a level: detail, info or warning'])
        one.quits()


@case
def a_received_file():
    """A file is received: a follower reads each event once, and a later follower the same events from the beginning."""
    with server() as one:
        client = one.client()
        want(client.ask("follow"), ["ok"])
        one.send(METADATA, FILE_DATA, EOF)
        finished = client.wait_event(lambda event: event.get("name") == "Transaction-Finished", "the end")
        want((finished["condition"], finished["delivery"], finished["status"]), (0, "complete", "retained"))
        want((finished["user"], finished["source"], finished["seq"]), ("alice", 1, 5))
        later = one.client()
        want(later.ask("follow 1000"), ["ok"])
        later.wait_event(lambda event: event["number"] == finished["number"], "the last event")
        want([event["number"] for event in later.events], list(range(1, finished["number"] + 1)))
        want(later.events[0]["kind"], "start")
        want([event for event in later.events if event["number"] > 1], client.events[: finished["number"] - 1])
        # two workers may deliver datagrams in another order than they arrived
        names = [event["name"] for event in client.events if event["kind"] == "indication"]
        want((sorted(names), names[-1]),
             (["EOF-Recv", "File-Segment-Recv", "Metadata-Recv", "Transaction-Finished"], "Transaction-Finished"))
        status = later.status()
        [transaction] = [line for line in status if line["kind"] == "transaction"]
        want((transaction["state"], transaction["role"], transaction["file"], transaction["to"], transaction["size"]),
             ("ended", "receiver", "a", "b", 3))
        want((transaction["condition"], transaction["delivery"], transaction["status"]), (0, "complete", "retained"))
        want(status[0]["counters"]["stored"], 1)
        want(pathlib.Path("received/b").read_bytes(), b"abc")
        one.quits()


@case
def refusals():
    """Octets that are not a PDU, a source without a user, and a command: each kind is counted and reported."""
    with server() as one:
        client = one.client()
        want(client.ask("follow"), ["ok"])
        one.send(b"\x24\0", b"\x24\0", METADATA[:4] + b"\x09" + METADATA[5:])
        client.wait_event(lambda event: event.get("name") == "NoRoute", "the refusal of a source")
        want(client.ask("cancel alice 1 9"), ["refused 1 NoTransaction"])
        # the other worker may still read one of the other two
        until(lambda: client.status()[0]["counters"]["refused"] == 4, "all refusals")
        status = client.status()
        refused = {(line["name"], line.get("fault")): line for line in status if line["kind"] == "refusal"}
        want(sorted(name for name, _ in refused), ["DecodeFault", "NoRoute", "NoTransaction"])
        want((refused["DecodeFault", 1]["count"], refused["DecodeFault", 1]["octets"]), (2, "2400"))
        want(refused["DecodeFault", 1]["from"], "127.0.0.1:%d" % one.socket.getsockname()[1])
        want("from" in refused["NoTransaction", None], False)
        counters = status[0]["counters"]
        want((counters["datagrams_in"], counters["decode_faults"], counters["foreign_datagrams"], counters["refused"]), (3, 2, 3, 4))
        one.quits()


@case
def refused_pdus():
    """The status says which PDU a refused datagram was, or that it was none; a command names none."""
    with server(options=()) as one:
        client = one.client()
        want(client.ask("follow"), ["ok"])
        one.send(b"\x24\0", METADATA[:4] + b"\x09" + METADATA[5:], METADATA[:6] + b"\x09" + METADATA[7:])
        for name in ("DecodeFault", "NoRoute", "NotForUs"):
            client.wait_event(lambda event, name=name: event.get("name") == name, name)
        want(client.ask("cancel alice 1 9"), ["refused 1 NoTransaction"])
        pdus = {line["name"]: (line.get("pdu"), line.get("source"), line.get("seq")) for line in client.status() if line["kind"] == "refusal"}
        want(pdus, {"DecodeFault": ("no PDU", None, None), "NoRoute": ("Metadata", 9, 5), "NotForUs": ("Metadata", 1, 5),
                    "NoTransaction": (None, None, None)})
        want([event for event in client.events if event["kind"] == "refused" and "pdu" in event], [])
        one.send(FILE_DATA[:6] + b"\x09" + FILE_DATA[7:])
        until(lambda: [line["pdu"] for line in client.status() if line.get("name") == "NotForUs"] == ["File Data"], "the file data")
        one.quits()


@case
def a_put():
    pathlib.Path("a").write_bytes(bytes(1_000))
    with server() as one:
        client = one.client()
        want(client.ask("follow"), ["ok"])
        [ok, txn] = client.ask("put bob 1 1 1 a b")
        want((ok, txn), ("ok", "txn 2 7"))
        put = client.wait_event(lambda event: event["kind"] == "put", "the put")
        want({name: put[name] for name in ("user", "source", "seq", "peer", "class", "file", "to", "size")},
             {"user": "bob", "source": 2, "seq": 7, "peer": 1, "class": 1, "file": "a", "to": "b", "size": 1_000})
        client.wait_event(lambda event: event.get("name") == "Transaction-Finished", "the end")
        want(client.ask("put bob 1 1 1 nowhere b"), ["read fault"])
        [remote] = [line for line in client.status() if line["kind"] == "remote"]
        want((remote["id"], remote["datagrams_out"], remote["failed_sends"]), (1, 6, 0))
        one.quits()


@case
def paths_that_are_no_files():
    """A pipe that nobody writes to, a folder, a device without an end and a socket are a `read fault` at once, for a put and in the outbox;
    what comes after them is sent."""
    os.mkfifo("pipe")
    os.mkdir("folder")
    pathlib.Path("a").write_bytes(b"abc")
    with server() as one:
        client = one.client()
        want(client.ask("follow"), ["ok"])
        odd = ("pipe", "folder", "/dev/zero", "control", "gone")
        for path in odd:
            want((path, client.ask(f"put alice 0 1 1 {path} b")), (path, ["read fault"]))
        for number, path in enumerate((*odd, "a"), 1):
            want(client.ask(f"send alice 1 1 {path} b"), [f"queued {number}"])
        put = client.wait_event(lambda event: event["kind"] == "put", "the file after them")
        want((put["file"], put["queued"]), ("a", len(odd) + 1))
        want([(event["file"], event["why"]) for event in client.events if event["kind"] == "unsent"], [(path, "read fault") for path in odd])
        one.quits()


def watching():
    """A client of the status socket, which may have its path before it lets anybody in."""
    found = []

    def comes_in():
        with contextlib.suppress(OSError):
            found.append(Client("watched"))
        return found

    until(comes_in, "the status socket")
    return found[0]


class Spare(Client):
    """A client that comes while all seats are taken."""

    def __init__(self, one):
        super().__init__()

    def ask(self, command):
        """The answer to its command, and the line `busy` where there is none."""
        try:
            self.stream.sendall(command.encode() + b"\n")
            lines = []
            while True:
                line = self.line()
                if line in (None, b"busy"):
                    return None, line
                if line == b".":
                    want(self.line(), None)
                    return lines, None
                lines.append(line.decode())
        except OSError:
            return None, None
        finally:
            self.close()


def silent_client():
    """A client that has the spare seat and says nothing, and the moment before it came. The last one may still be leaving it."""
    for _ in range(20):
        begun = time.monotonic()
        client = Client()
        if not select.select([client.stream], [], [], 2)[0]:
            return client, begun
        client.close()
    raise Wrong("the spare seat was never free")


@case
def many_clients():
    """Sixteen clients ask at once, and each gets its own answers in order. One more has the spare seat for one command."""
    with server() as one:
        one.client().close()
        clients = []
        end = time.monotonic() + 60
        while len(clients) < SEATS and time.monotonic() < end:
            client = one.client()
            answer = client.ask(f"trace 1 {len(clients)}")
            if answer is None:
                time.sleep(0.02)
                continue
            want(answer, ["refused 1 NoTransaction"])
            clients.append(client)
        want(len(clients), SEATS)
        for command, answer in (("trace 1 1", None), ("put alice 0 1 1 a b", None), ("abandon alice 1 1", ["refused 1 NoTransaction"]),
                                ("hold 1", ["ok"]), ("release 1", ["ok"]), ("hold all", ["ok"]), ("release 1 5", ["ok"]),
                                ("release all", ["ok"])):
            until(lambda: Spare(one).ask(command) == (answer, b"busy" if answer is None else None), f"{command} at the spare seat")
        until(lambda: len(Spare(one).ask("status")[0] or []) > 2, "a status at the spare seat")
        silent, begun = silent_client()
        late = Client()
        want((late.line(), late.line()), (b"busy", None))
        want((silent.line(), silent.line(), 4.5 < time.monotonic() - begun < 30), (b"busy", None, True))
        wrong = []

        def ask(client):
            try:
                for turn in range(100):
                    if turn % 2:
                        want(client.status()[0]["kind"], "entity")
                    else:
                        want(client.ask("no command"), ["bad command", '"no" is not a command'])
            except (Wrong, OSError, TypeError) as why:
                wrong.append(why)

        threads = [threading.Thread(target=ask, args=(client,)) for client in clients]
        for thread in threads:
            thread.start()
        for thread in threads:
            thread.join()
        want(wrong, [])
        clients.pop().close()
        until(lambda: Client().ask("trace 1 1") == ["refused 1 NoTransaction"], "an answer at a free seat")
        for client in clients:
            client.close()
        until(lambda: one.clients_sit() == 1, "the end of the visits")
        one.quits()


@case
def a_status_socket():
    """A client of the status socket sees what there is to see, and changes nothing: any other line is refused, isn't reported, and reads no
    file."""
    os.mkfifo("endless")
    with server(options=("control.status_socket = 'watched'", "control.mode = '0660'")) as one:
        client = one.client()
        watcher = watching()
        want([stat.S_IMODE(os.stat(path).st_mode) for path in ("control", "watched")], [0o660, 0o660])
        one.send(METADATA, FILE_DATA, EOF)
        until(lambda: os.path.exists("received/b"), "the file")
        want((client.ask("hold 1"), client.ask("send alice 1 1 gone b")), (["ok"], ["queued 1"]))
        kinds = lambda asker: [line["kind"] for line in asker.status()]
        until(lambda: kinds(watcher) == kinds(client), "one status for both")
        want([json.loads(line)["file"] for line in watcher.ask("outbox")], ["gone"])
        want(watcher.ask("journal 1 5")[0][:1], "#")
        want(watcher.ask("journal 1 9"), ["refused 1 NoTransaction"])
        for line in ("follow 100 warning", "follow"):
            want(watcher.ask(line), ["ok"])
        for line in ("put alice 0 1 1 endless b", "send alice 1 1 endless b urgent", "send alice 1 1 a b", "drop 1", "hold 1", "hold all", "release 1",
                     "release 1 5", "release all", "rate 5", "rate 1 off", "cancel alice 1 5", "suspend alice 1 5", "resume alice 1 5", "report alice 1 5",
                     "abandon alice 1 5", "take alice", "trace 1 5", "reopen", "quit", "", "no command", "status now", "follow x"):
            want((line, watcher.ask(line)), (line, ["refused NotHere"]))
        [remote] = [line for line in client.status() if line["kind"] == "remote"]
        want((remote["held"], kinds(client).count("queued")), (True, 1))
        want(client.ask("release 1"), ["ok"])
        watcher.wait_event(lambda event: event.get("words") == "release 1", "the event of a command")
        want([event["words"] for event in watcher.events if event["kind"] == "command"], ["release 1"])
        one.quits()
        until(lambda: watcher.line() is None, "the end of the stream")
        want(os.path.exists("watched"), False)


def seated(one):
    """A client with a seat: that of a visit that has just ended may not be free yet."""
    found = []

    def sits():
        client = one.client()
        if client.ask("trace 1 9") == ["refused 1 NoTransaction"]:
            found.append(client)
        else:
            client.close()
        return found

    until(sits, "a seat")
    return found[0]


@case
def seats_of_watchers():
    """Four watchers take no seat of the control socket, a fifth one is told so, and clients of the control socket take none of theirs."""
    with server(options=("control.status_socket = 'watched'",)) as one:
        one.client().close()
        until(lambda: one.clients_sit() == 1, "the end of the visit")
        watchers = [watching() for _ in range(4)]
        for watcher in watchers:
            want(watcher.status()[0]["kind"], "entity")
        fifth = Client("watched")
        want((fifth.line(), fifth.line()), (b"busy", None))
        clients = [seated(one) for _ in range(SEATS)]
        want(clients[0].status()[0]["clients"], SEATS + 4)
        want(Spare(one).ask("trace 1 9"), (None, b"busy"))
        until(lambda: len(Spare(one).ask("status")[0] or []) > 2, "a status at the spare seat")
        want([watcher.ask("hold all") for watcher in watchers], [["refused NotHere"]] * 4)
        watchers.pop().close()
        until(lambda: Client("watched").ask("outbox") == [], "a free seat of a watcher")
        long = watchers.pop()
        with contextlib.suppress(OSError):
            long.stream.sendall(b"x" * 300_000)
        want((long.answer(), long.line()), (["bad command"], None))
        for client in clients:
            client.close()
        until(lambda: one.clients_sit() == 3, "the end of the visits")
        one.quits()


# Lines that aren't commands, and what is said of them.
WRONG = (
    ("", '"" is not a command'), ("Status", '"Status" is not a command'), ("status ", 'status: "" is one word too many'),
    ("put carol 0 2 2 a b", 'put: "carol" is not a user of the configuration'),
    ("put alice 9 2 2 a b", "put: \"9\" is not one of the user's sending lanes"),
    ("put alice 0 3 2 a b", 'put: "3" is not a class, 1 or 2'), ("put alice 0 2 x a b", 'put: "x" is not the number of an entity'),
    ("put alice 0 2 2 a", "put: a name of 1 to 255 octets is missing"), ("put alice 0 2 2 a b Closure", 'put: "Closure" is not the word closure'),
    ("put alice 0 2 2 a b closure x", 'put: "x" is one word too many'),
    ("send alice 2 2 a b urgent closure", 'send: after the names come closure, urgent and as NAME, each or none, in this order'),
    ("rate 2 8k", 'rate: "8k" is not a number of octets a second, 1 to 1000000000, or off'),
    ("rate", "rate: a number of octets a second, 1 to 1000000000, or off is missing"),
    ("hold every", 'hold: "every" is not the number of an entity, or all'),
    ("release 2 90000", 'release: "90000" is not a number of seconds, 1 to 86400'),
    ("follow 1 2", 'follow: "2" is not a level: detail, info or warning'), ("drop x", 'drop: "x" is not the number of a file in the outbox'),
    ("cancel alice 2", "cancel: a transaction's sequence number is missing"), ("trace 2 -1", "trace: \"-1\" is not a transaction's sequence number"),
    ("x" * 50, '"' + "x" * 40 + '" is not a command'), (r'drop "\x07"', 'drop: "?" is not the number of a file in the outbox'),
    ('drop "1', "quotes are not closed, or an octet stands where it may not, such as one beyond ASCII outside quotes"),
)


@case
def lines_that_are_not_commands():
    """The reply names the word and what has to stand in its place."""
    with server() as one:
        client = one.client()
        for line, why in WRONG:
            want((line, client.ask(line)), (line, ["bad command", why]))


@case
def many_commands_at_once():
    """Commands that arrive together are answered in order, also after the client has shut down its sending end."""
    with server() as one:
        client = one.client()
        client.stream.sendall(b"status\nno command\n" + b"trace 1 9\n" * 100)
        client.stream.shutdown(socket.SHUT_WR)
        want(json.loads(client.answer()[0])["kind"], "entity")
        want(client.answer(), ["bad command", '"no" is not a command'])
        for _ in range(100):
            want(client.answer(), ["refused 1 NoTransaction"])
        want(client.line(), None)
        one.quits()


@case
def broken_clients():
    """Half a line is not a command, an endless line is answered once, and a client that leaves disturbs no other."""
    with server() as one:
        half = one.client()
        half.stream.sendall(b"quit")
        half.stream.shutdown(socket.SHUT_WR)
        want(half.line(), None)
        long = one.client()
        with contextlib.suppress(OSError):
            long.stream.sendall(b"x" * 300_000)
        want((long.answer(), long.line()), (["bad command"], None))
        for _ in range(200):
            # some of them get no seat
            gone = one.client()
            with contextlib.suppress(OSError):
                gone.stream.sendall(b"status\nfollow\nsta")
            gone.close()
        until(lambda: one.clients_sit() == 1, "the end of the visits")
        one.quits()


def long_file(seq):
    """An empty file with as many messages to the user as a datagram has room for: its event takes 128,000 octets."""
    messages = (b"\x02\xff" + b"\0" * 255) * 250
    fields = b"\x07\0" + bytes(4) + b"\x01a\x01b" + messages
    return b"\x24" + len(fields).to_bytes(2, "big") + bytes([0, 1, seq, 2]) + fields, bytes.fromhex("24000a0001") + bytes([seq, 2, 4]) + bytes(9)


@case
def clients_that_do_not_read():
    """A follower that doesn't read is cut off, and so is one that asks on and on; both are counted. Meanwhile no status waits for them, and
    files are received."""
    with server() as one:
        deaf = one.client()
        deaf.stream.sendall(b"follow\n")
        asking = one.client()
        asking.stream.setblocking(False)
        client = one.client()
        counters = lambda: client.status()[0]["counters"]
        slowest, seq = 0.0, 10
        while counters()["dropped_clients"] < 2:
            seq += 1
            want(seq < 250, True)
            with contextlib.suppress(BlockingIOError, ConnectionError):
                asking.stream.send(b"follow 1024\n" * 10)
            stored = counters()["stored"]
            one.send(*long_file(seq))
            until(lambda: counters()["stored"] > stored, "an empty file")
            begun = time.monotonic()
            client.status()
            slowest = max(slowest, time.monotonic() - begun)
        want((seq > 50, slowest < 10), (True, True))
        for gone in (deaf, asking):
            gone.stream.settimeout(20)
            with contextlib.suppress(ConnectionResetError):
                while gone.stream.recv(1_048_576):
                    pass
        stored = counters()["stored"]
        one.send(*long_file(seq + 1))
        until(lambda: counters()["stored"] > stored, "a file")
        one.quits()


@case
def a_status_under_load():
    """Datagrams arrive as fast as possible while a client asks again and again: each answer is whole."""
    with server() as one:
        client = one.client()
        stop = threading.Event()

        def flood():
            while not stop.is_set():
                one.send(METADATA, FILE_DATA, b"\x24\0")

        flooding = threading.Thread(target=flood)
        flooding.start()
        try:
            for _ in range(200):
                kinds = [line["kind"] for line in client.status()]
                want((kinds[0], "remote" in kinds), ("entity", True))
        finally:
            stop.set()
            flooding.join()
        one.quits()


@case
def stale_and_live_sockets():
    stale = socket.socket(socket.AF_UNIX)
    stale.bind("control")
    stale.close()
    with server() as one:
        client = one.client()
        with server() as second:
            want(second.refuses(), (1, "cfdp_server: bind fault"))
        want(client.ask("trace 1 9"), ["refused 1 NoTransaction"])
        one.run.kill()
        one.run.wait()
        want(os.path.exists("control"), True)
    with server() as third:
        third.client()
        third.quits()


@case
def longest_path():
    """A path has at most 105 octets, also where a server died while it replaced a stale socket."""
    longest = "c" * 105
    for path in (longest, f"{longest}.t"):
        with contextlib.closing(socket.socket(socket.AF_UNIX)) as stale:
            stale.bind(path)
    with server(path=longest) as one:
        one.quits()
    with server(path=f"{longest}c") as one:
        want(one.refuses(), (1, "cfdp_server: bind fault"))
    want([name for name in os.listdir() if name.startswith("c" * 9)], [])


@case
def two_starts_at_once():
    """Of several servers that start at the same time, where a stale socket is, one serves and the others end."""
    for _ in range(5):
        stale = socket.socket(socket.AF_UNIX)
        stale.bind("control")
        stale.close()
        with contextlib.ExitStack() as stack:
            starting = [stack.enter_context(server()) for _ in range(4)]
            until(lambda: sum(one.run.poll() is None for one in starting) == 1, "an end of all but one")
            [serving] = [one for one in starting if one.run.poll() is None]
            for one in starting:
                if one is not serving:
                    want(one.refuses(), (1, "cfdp_server: bind fault"))
            want(serving.client().ask("trace 1 9"), ["refused 1 NoTransaction"])
            want(sorted(name for name in os.listdir() if name.startswith("control")), ["control"])
            serving.quits()


@case
def sources_that_are_not_known():
    """With known sources alone, datagrams from other sources are counted and not read."""
    with server(options=("station.sources = 'known'",)) as one:
        client = one.client()
        want(client.ask("follow"), ["ok"])
        one.send(METADATA)
        refused = client.wait_event(lambda event: event["kind"] == "refused", "the refusal")
        want((refused["refusal"], refused["name"], refused["octets"]), (27, "ForeignSource", METADATA.hex()))
        one.send(b"\x24\0")
        until(lambda: client.status()[0]["counters"]["foreign_datagrams"] == 2, "the count")
        want(client.status()[0]["counters"]["decode_faults"], 0)
        with socket.socket(socket.AF_INET, socket.SOCK_DGRAM) as peer:
            peer.bind(("127.0.0.1", one.peer))
            for datagram in (METADATA, FILE_DATA, EOF):
                peer.sendto(datagram, ("127.0.0.1", one.port))
            until(lambda: os.path.exists("received/b"), "the file")
        one.quits()


@case
def a_path_that_is_no_socket():
    pathlib.Path("control").write_text("kept")
    with server() as one:
        want(one.refuses(), (1, "cfdp_server: bind fault"))
    want(pathlib.Path("control").read_text(), "kept")
    with server(path="nowhere/control") as one:
        want(one.refuses(), (1, "cfdp_server: bind fault"))


@case
def a_log():
    """Each event is in the file once, in order, over the runs of two servers."""
    with server(options=("log.file = 'log'", "log.commands = false")) as one:
        client = one.client()
        want(client.ask("follow"), ["ok"])
        one.send(METADATA, FILE_DATA, EOF)
        client.wait_event(lambda event: event.get("name") == "Transaction-Finished", "the end")
        [log] = [line for line in client.status() if line["kind"] == "log"]
        want((log["failing"], log["lost"]), (False, 0))
        one.quits()
    first = [json.loads(line) for line in open("log", encoding="utf-8")]
    want((first[0]["kind"], first[-1]["kind"]), ("start", "end"))
    want([event["number"] for event in first], list(range(1, len(first) + 1)))
    with server(options=("log.file = 'log'", "log.commands = false")) as one:
        one.client()
        one.quits()
    want([json.loads(line)["kind"] for line in open("log", encoding="utf-8")][len(first):], ["start", "end"])


@case
def a_log_on_a_full_disk():
    """The server keeps running, reports that the log fails, and continues it once there is room."""
    with small_disk("logs", "size=16k"):
        fill("logs/full")
        with server(options=("log.file = 'logs/log'",)) as one:
            client = one.client()

            def log():
                return [line for line in client.status() if line["kind"] == "log"][0]

            until(lambda: log()["failing"], "word of the log")
            one.send(METADATA, FILE_DATA, EOF)
            until(lambda: os.path.exists("received/b"), "the file")
            os.unlink("logs/full")
            until(lambda: not log()["failing"] and log()["written"] > 1, "the log")
            one.quits()
        events = [json.loads(line) for line in open("logs/log", encoding="utf-8")]
        want([event["number"] for event in events], list(range(1, len(events) + 1)))


@case
def followers_that_read_late():
    """A follower that reads nothing for a while gets all events later."""
    with server() as one:
        late = one.client()
        want(late.ask("follow"), ["ok"])
        client = one.client()
        for seq in range(200):
            one.send(METADATA[:5] + bytes([seq]) + METADATA[6:], FILE_DATA[:5] + bytes([seq]) + FILE_DATA[6:],
                     EOF[:5] + bytes([seq]) + EOF[6:])
            time.sleep(0.002)
        seen = lambda: client.status()[0]["events"]
        # each of the transactions has several
        until(lambda: seen() > 600, "their events")
        time.sleep(1)
        last = seen()
        late.wait_event(lambda event: event["number"] == last, "the last event")
        want((late.events[0]["number"] <= 2, [event["number"] for event in late.events]),
             (True, list(range(late.events[0]["number"], last + 1))))
        one.quits()


@case
def a_status_of_standard_input():
    os.makedirs("received", exist_ok=True)
    pathlib.Path("config").write_text(configuration(f"127.0.0.1:{free_port()}", ("alice", "bob")))
    run = subprocess.run(
        [SERVER, "--config", "config", "--bind", f"127.0.0.1:{free_port()}", "--folder", "received"],
        input=b"status\nfollow\nquit\n", capture_output=True, timeout=90, check=False,
    )
    lines = run.stdout.decode().splitlines()
    want((run.returncode, lines[-1]), (0, "bad command"))
    status = [json.loads(line) for line in lines[:-1]]
    want([line["kind"] for line in status], ["entity", "user", "user", "remote", "note"])
    want([(line["name"], line["waiting"], line["capacity"]) for line in status if line["kind"] == "user"],
         [("alice", 0, 64), ("bob", 0, 64)])


in_own_mounts()
run_cases("a control socket")
