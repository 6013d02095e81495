#!/usr/bin/env python3
"""An outbox that is kept in a file: what waits there or is under way is there after a restart, a kill, and on a disk that was full.

usage: tests/outbox.py SERVER

Each case has its own server on loopback, in its own folder, and ends within a minute.
"""
import contextlib
import json
import os
import pathlib
import socket
import subprocess
import sys
import threading
import time

from support import (
    Station, Wrong, case, close_run, configuration, fill, free_port, in_own_mounts, run_cases, small_disk, socket_of_peer,
    station_text, until, want,
)

SERVER = os.path.abspath(sys.argv[1])
KILLS = 50


class Peer:
    """The entity that files are sent to. It answers nothing; a thread of its own notes what arrives."""

    def __init__(self):
        self.socket = socket.socket(socket.AF_INET, socket.SOCK_DGRAM)
        self.socket.setsockopt(socket.SOL_SOCKET, socket.SO_RCVBUF, 8_000_000)
        self.socket.bind(("127.0.0.1", 0))
        self.socket.settimeout(0.05)
        self.port = self.socket.getsockname()[1]
        # of each transaction its names, in the order in which they came, and those whose EOF came
        self.names = {}
        self.ended = set()
        self.is_over = False
        self.thread = threading.Thread(target=self.work, daemon=True)
        self.thread.start()

    def work(self):
        while not self.is_over:
            with contextlib.suppress(TimeoutError):
                octets = self.socket.recv(65_536)
                seq, body = int.from_bytes(octets[5:9], "big"), octets[10:]
                if body[:1] == b"\7":
                    source, rest = body[7 : 7 + body[6]], body[7 + body[6] :]
                    self.names.setdefault(seq, (source.decode(), rest[1 : 1 + rest[0]].decode()))
                elif body[:1] == b"\4" and not octets[0] & 0x10:
                    self.ended.add(seq)

    def targets(self):
        """The destination names that came, in order."""
        return [target for _, target in list(self.names.values())]

    def whole(self):
        """Those of files that came up to their EOF."""
        return [target for seq, (_, target) in list(self.names.items()) if seq in self.ended]

    def close(self):
        self.is_over = True
        self.thread.join()
        self.socket.close()


class Sender:
    """Station 1 with the file of its outbox, and the peer that its files go to."""

    def __init__(self, *options, at="outbox", **named):
        self.peer = Peer()
        self.port = free_port()
        self.at = at
        self.named = named
        for name in "abc":
            pathlib.Path(name).write_bytes(name.encode() * 100)
        self.start(*options)

    def start(self, *options):
        words = (f"sending.outbox = '{self.at}'", "sending.numbers = 'numbers'", *options)
        self.one = Station(SERVER, 1, self.port, 2, self.peer.port, **{"options": words, **self.named})
        self.client = self.one.client()

    def kill(self):
        self.client.close()
        self.one.close()

    def restart(self, *options):
        self.kill()
        self.start(*options)

    def quit(self):
        """Lets the server end by itself."""
        want(self.client.ask("quit"), ["ok"])
        want(self.one.run.wait(60), 0)

    def close(self):
        self.one.close()
        self.peer.close()

    def waiting(self):
        return [json.loads(line) for line in self.client.ask("outbox")]

    def numbers(self):
        return [line["number"] for line in self.waiting()]


@contextlib.contextmanager
def sender(*options, **named):
    one = Sender(*options, **named)
    try:
        yield one
    finally:
        one.close()


def lines(path="outbox"):
    return pathlib.Path(path).read_text().splitlines()


@case
def what_waits_is_there_after_a_restart():
    """Order, numbers, users, names and moments stay, whether the server quits or is killed; and numbers go on."""
    with sender("station.hold = true") as one:
        want(one.client.ask("send alice 2 2 a first"), ["queued 1"])
        want(one.client.ask("send bob 1 2 b second closure"), ["queued 2"])
        want(one.client.ask('send alice 1 2 c "a \\"third\\" \\xff one" urgent as "other name"'), ["queued 3"])
        listed = one.waiting()
        want([(line["number"], line["user"]) for line in listed], [(1, "alice"), (2, "bob"), (3, "alice")])
        one.restart("station.hold = true")
        want(one.waiting(), listed)
        one.quit()
        want(os.path.exists("outbox.lock"), False)
        one.start("station.hold = true")
        want(one.waiting(), listed)
        want(one.client.ask("send bob 1 2 a fourth"), ["queued 4"])
        one.restart("station.hold = true")
        want(one.numbers(), [1, 2, 3, 4])
        want(one.client.ask("drop 4"), ["ok"])
        one.restart("station.hold = true")
        want((one.numbers(), one.client.ask("drop 4")), ([1, 2, 3], ["refused NotQueued"]))
        want(one.client.ask("send bob 1 2 a fifth"), ["queued 5"])


@case
def an_urgent_file_is_still_urgent():
    """After a restart it goes before its user's others, and another source name is told to the receiver. What ended doesn't come back."""
    with sender("station.hold = true", lanes=1, users=("alice",)) as one:
        for words in ("a first", "b second", "c third urgent as other"):
            one.client.ask(f"send alice 1 2 {words}")
        one.restart()
        until(lambda: len(one.peer.whole()) == 3, "the files")
        want(one.peer.targets(), ["third", "first", "second"])
        want([source for source, _ in one.peer.names.values()], ["other", "a", "b"])
        until(lambda: sum(line.startswith("ended") for line in lines()) == 3, "the end of all three in the file")
        one.restart()
        want((one.numbers(), lines()), ([], ["next 4"]))
        time.sleep(0.5)
        want(len(one.peer.names), 3)
        want(one.client.ask("send alice 1 2 a fourth"), ["queued 4"])


@case
def what_is_under_way_comes_back():
    """A transaction that a kill interrupts begins again, as a new one; one that was abandoned does not. Nobody answers it, and no limit
    ends it before."""
    with sender(lanes=1, users=("alice",), limit=200) as one:
        one.client.ask("send alice 2 2 a first")
        until(lambda: one.peer.targets() == ["first"], "the file")
        until(lambda: "began 1" in lines(), "its line")
        want(one.numbers(), [])
        one.restart()
        until(lambda: one.peer.targets() == ["first", "first"], "the file again")
        seq = max(one.peer.names)
        want(one.client.ask(f"abandon alice 1 {seq}")[0].startswith("ok"), True)
        until(lambda: "ended 1" in lines(), "its end")
        one.restart()
        time.sleep(0.5)
        want((one.numbers(), len(one.peer.names)), ([], 2))


@case
def a_file_that_cannot_be_sent_does_not_come_back():
    """It is told as not sent once."""
    with sender("station.hold = true") as one:
        want(one.client.ask("follow"), ["ok"])
        one.client.ask("send alice 1 2 missing x")
        one.client.ask("release 2")
        event = one.client.wait_event(lambda event: event["kind"] == "unsent", "the event")
        want((event["queued"], event["why"]), (1, "read fault"))
        until(lambda: "dropped 1" in lines(), "its line")
        one.restart()
        want(one.numbers(), [])


@case
def a_file_whose_users_queue_is_full():
    """It waits until its user has taken an indication."""
    with socket_of_peer() as peer:
        there = f"127.0.0.1:{peer.getsockname()[1]}"
        pathlib.Path("config").write_text(configuration(there, users=("alice",), timer=60_000, capacity=1))
        os.makedirs("received", exist_ok=True)
        pathlib.Path("a").write_bytes(b"abc")
        words = ("--config", "config", "--bind", f"127.0.0.1:{free_port()}", "--folder", "received")
        run = subprocess.Popen([SERVER, *words], stdin=subprocess.PIPE, stdout=subprocess.PIPE, text=True)
        guard = threading.Timer(120, run.kill)
        guard.start()
        try:
            want(replies(run, "put alice 0 2 1 a b")[0], "ok")
            want(replies(run, "send alice 2 1 a c"), ["queued 1"])
            time.sleep(2.5)
            want(len(replies(run, "outbox")), 1)
            until(lambda: replies(run, "take alice") and not replies(run, "outbox"), "the file")
        finally:
            guard.cancel()
            close_run(run)


def replies(run, command):
    """The lines of the reply to a command on the standard input."""
    run.stdin.write(f"{command}\ntrace 1 1000000\n")
    run.stdin.flush()
    lines_here = []
    while not (line := run.stdout.readline()).startswith("refused 1 "):
        if not line:
            raise Wrong("the server ended")
        lines_here.append(line.rstrip("\n"))
    return lines_here


def count_of(word, path="outbox"):
    """How many lines of the file begin with a word."""
    return sum(line.startswith(word) for line in lines(path))


# What is counted until a server is killed: answers, lines of the file, names and whole files at the peer.
COUNTED = [
    lambda _, answered: len(answered),
    lambda *_: count_of("began"),
    lambda one, _: len(one.peer.names),
    lambda one, _: len(one.peer.ended),
    lambda *_: count_of("ended"),
]


def send_until_killed(one, kill, answered):
    """Sends three files, notes their numbers and names, and kills the server as soon as there is more of what is counted: one, two or
    three. Before every other kill one more file is given, and nobody waits for its answer."""
    counted = COUNTED[kill % len(COUNTED)]
    wanted = counted(one, answered) + 1 + kill % 3
    for name in "abc":
        answer = one.client.ask(f"send alice 1 2 {name} {name}{kill}")
        want(answer[0].split()[0], "queued")
        answered.append((int(answer[0].split()[1]), f"{name}{kill}"))
    if kill % 2:
        one.client.stream.sendall(b"send alice 1 2 a unanswered\n")
    end = time.monotonic() + 90
    while counted(one, answered) < wanted:
        want((kill, time.monotonic() < end), (kill, True))
        time.sleep(0.003)
    one.kill()


@case
def fifty_kills():
    """In the middle of sends: each file that was answered as queued arrives, the first time in the order of the numbers."""
    with sender(lanes=1, users=("alice",)) as one:
        answered = []
        for kill in range(KILLS):
            send_until_killed(one, kill, answered)
            one.start()
        until(lambda: count_of("queued") == count_of("ended"), "the end of all files", 180)
        want(one.numbers(), [])
        known = [name for _, name in answered]
        until(lambda: set(known) <= set(one.peer.whole()), "each file")
        want([number for number, _ in answered], sorted({number for number, _ in answered}))
        want([name for name in dict.fromkeys(one.peer.targets()) if name in known], known)


@case
def a_full_disk():
    """What can't be noted is refused, in memory too, and what waits stays. Once there is room, files are taken again."""
    with small_disk("disk", "size=64k"):
        with sender("station.hold = true", at="disk/outbox") as one:
            want(one.client.ask("send alice 1 2 a first"), ["queued 1"])
            fill("disk/filler")
            count = 1
            while (answer := one.client.ask("send alice 1 2 a next")) != ["outbox fault"]:
                want(answer, [f"queued {count + 1}"])
                count += 1
            want(one.numbers(), list(range(1, count + 1)))
            want(one.client.ask("send alice 1 2 a again"), ["outbox fault"])
            want(one.client.ask("drop 1"), ["outbox fault"])
            want(one.numbers(), list(range(1, count + 1)))
            os.remove("disk/filler")
            want(one.client.ask("drop 1"), ["ok"])
            want(one.client.ask("send alice 1 2 a last"), [f"queued {count + 1}"])
            one.restart("station.hold = true")
            want(one.numbers(), list(range(2, count + 2)))


@case
def ends_on_a_full_disk():
    """What leaves while the disk is full is noted once there is room: while the server runs, and also by one that quits at once."""
    for quits in (False, True):
        with small_disk("disk", "size=64k"):
            with sender("station.hold = true", at="disk/outbox", lanes=1, users=("alice",)) as one:
                fill("disk/filler")
                count = 0
                # long names, so that some fifteen files fill what the file has of the disk
                while one.client.ask(f"send alice 1 2 a {'next' * 50}") != ["outbox fault"]:
                    count += 1
                want(count > 9, True)
                one.client.ask("release 2")
                until(lambda: len(one.peer.whole()) == count, "the files")
                want(count_of("ended", "disk/outbox"), 0)
                os.remove("disk/filler")
                if quits:
                    one.quit()
                    want(count_of("ended", "disk/outbox"), count_of("queued", "disk/outbox"))
                    one.start()
                else:
                    until(lambda: count_of("queued", "disk/outbox") == count_of("ended", "disk/outbox"), "their ends in the file")
                    one.restart()
                time.sleep(0.5)
                want((one.numbers(), len(one.peer.names)), ([], count))


@case
def a_full_disk_of_the_numbers():
    """A file whose number can't be written waits, and goes once there is room."""
    with small_disk("disk", "size=64k"):
        with numbered() as one:
            one.client.ask("send alice 1 2 a first")
            one.client.ask("send alice 1 2 b second")
            fill("disk/filler")
            one.client.ask("release 2")
            time.sleep(2.5)
            want((sorted(one.numbers()), one.peer.targets()), ([1, 2], []))
            os.remove("disk/filler")
            until(lambda: sorted(one.peer.whole()) == ["first", "second"], "the files")


@case
def a_full_disk_of_the_numbers_alone():
    """Without a file of the outbox a file whose number can't be written leaves it unsent, once; one that comes when there is room goes."""
    with small_disk("disk", "size=64k"):
        with numbered(outbox=()) as one:
            want(one.client.ask("follow"), ["ok"])
            want(one.client.ask("send alice 1 2 a first"), ["queued 1"])
            fill("disk/filler")
            want(one.client.ask("release 2"), ["ok"])
            event = one.client.wait_event(lambda event: event["kind"] == "unsent", "the event")
            want((event["queued"], event["why"], one.waiting()), (1, "numbers fault", []))
            os.remove("disk/filler")
            want(one.client.ask("send alice 1 2 b second"), ["queued 2"])
            until(lambda: one.peer.whole() == ["second"], "the next file")
            want((one.waiting(), one.peer.targets()), ([], ["second"]))
            want([event["queued"] for event in one.client.events if event["kind"] == "unsent"], [1])


@contextlib.contextmanager
def numbered(outbox=("sending.outbox = 'outbox'",)):
    """A station whose numbers are on the small disk."""
    with sender(options=(*outbox, "sending.numbers = 'disk/numbers'", "station.hold = true"), lanes=1, users=("alice",)) as one:
        yield one


def start_alone(*options, control="alone"):
    """What a server prints first that can't start, and its status."""
    text = station_text(configuration("127.0.0.1:1", ("alice",), octets=4), "127.0.0.1:0", "files", control, options)
    pathlib.Path("alone.toml").write_text(text)
    done = subprocess.run([SERVER, "alone.toml"], stdin=subprocess.DEVNULL, capture_output=True, text=True, timeout=90, check=False)
    return done.returncode, done.stderr.splitlines()[0] + "\n"


FAULT = (1, "cfdp_server: outbox fault\n")


@case
def a_second_server():
    """It doesn't get the file, and the first one goes on."""
    with sender("station.hold = true") as one:
        one.client.ask("send alice 1 2 a first")
        want(start_alone("sending.outbox = 'outbox'"), FAULT)
        want(start_alone("sending.outbox = 'outbox'", "sending.numbers = 'own'"), FAULT)
        want(os.path.exists("own.lock"), False)
        want(one.client.ask("send alice 1 2 a second"), ["queued 2"])
        one.restart("station.hold = true")
        want(one.numbers(), [1, 2])


@case
def half_a_line():
    """A line that a cut of power tore is passed over, also with zeros in it or behind it."""
    whole = "next 5\nqueued 5 17 send alice 1 2 a b\n"
    for torn in ("", "q", "queued 6 18 send al", "dropped 5", "ended 5\0\0\0", "queued 6 18 se\0\0 alice 1 2 a b\n", "drop\0\0d 5\n\0", "\0\0\n"):
        pathlib.Path("outbox").write_text(whole + torn)
        with sender("station.hold = true") as one:
            want(one.numbers(), [5])
            want(one.waiting()[0]["since"], "1970-01-01T00:00:00.017Z")
            want(lines(), ["queued 5 17 send alice 1 2 a b", "next 6"])
            want(one.client.ask("send alice 1 2 a c"), ["queued 6"])


@case
def bad_files():
    """A file that says nothing, or something that this configuration can't do, is a fault of the start: what it says stays, and the
    file is released, as is that of numbers."""
    for text in ("nonsense\n", "queued 5 17 send carol 1 2 a b\n", "queued 5 17 status\n", "queued 5 17\n", "next -1\n"):
        pathlib.Path("outbox").write_text(text)
        want(start_alone("sending.outbox = 'outbox'"), FAULT)
        want((pathlib.Path("outbox").read_text().splitlines()[0], os.path.exists("outbox.lock")), (text.splitlines()[0], False))
        want(start_alone("sending.outbox = 'outbox'", "sending.numbers = 'own'"), FAULT)
        want((pathlib.Path("outbox").read_text().splitlines()[0], os.path.exists("outbox.lock")), (text.splitlines()[0], False))
        want(os.path.exists("own.lock"), False)
    os.remove("outbox")
    os.mkdir("outbox")
    want(start_alone("sending.outbox = 'outbox'"), FAULT)
    want(start_alone("sending.outbox = 'nowhere/outbox'"), FAULT)
    want(start_alone("sending.outbox = 'fresh'", control="nowhere/control"), (1, "cfdp_server: bind fault\n"))
    want((os.path.exists("fresh"), os.path.exists("fresh.lock")), (True, False))
    want(start_alone("sending.outbox = ''"), (1, "cfdp_server: config fault 4\n"))
    with sender(at="fresh") as one:
        want(one.client.ask("outbox"), [])


@case
def a_bad_line_is_mended():
    """A start that is told to goes on without the lines that can't be parsed, and keeps a copy of the file."""
    text = "next 5\nqueued 5 17 send alice 1 2 a b\nqueed 6 18 send alice 1 2 a c\nqueued 7 19 send alice 1 2 a d\n"
    for copy in ("outbox.bad", "outbox.bad.1"):
        pathlib.Path("outbox").write_text(text)
        want(start_alone("sending.outbox = 'outbox'"), FAULT)
        want(pathlib.Path("outbox").read_text(), text)
        with sender("station.hold = true", "sending.outbox_repair = true") as one:
            want(one.numbers(), [5, 7])
            want((lines(), pathlib.Path(copy).read_text()), (["queued 5 17 send alice 1 2 a b", "queued 7 19 send alice 1 2 a d", "next 8"], text))
            want(one.client.ask("send alice 1 2 a e"), ["queued 8"])
            one.restart("station.hold = true", "sending.outbox_repair = true")
            want(one.numbers(), [5, 7, 8])
    want(sorted(path.name for path in pathlib.Path().glob("outbox.bad*")), ["outbox.bad", "outbox.bad.1"])


@case
def a_file_that_grows():
    """Once it has grown tenfold, it is written anew: it has what waits, and no more."""
    with sender("station.hold = true") as one:
        want(one.client.ask("send alice 1 2 a kept"), ["queued 1"])
        size = 0
        for number in range(2, 3_000):
            want(one.client.ask("send bob 1 2 a x"), [f"queued {number}"])
            want(one.client.ask(f"drop {number}"), ["ok"])
            before, size = size, os.path.getsize("outbox")
            if size < before:
                break
        want((before > 40_000, size < 200), (True, True))
        one.restart("station.hold = true")
        want(one.numbers(), [1])
        want(one.client.ask("send bob 1 2 a x"), [f"queued {number + 1}"])


@case
def as_many_as_wait_come_back():
    """1,024 files, those under way included; one more is refused."""
    with sender("station.hold = true") as one:
        for number in range(1, 1_025):
            want(one.client.ask("send alice 1 2 a x"), [f"queued {number}"])
        want(one.client.ask("send alice 1 2 a x"), ["refused OutboxFull"])
        one.restart("station.hold = true")
        want(one.numbers(), list(range(1, 1_025)))
        want(one.client.ask("send alice 1 2 a x"), ["refused OutboxFull"])


in_own_mounts()
run_cases("outbox")
