#!/usr/bin/env python3
"""A running server when things go wrong around it: after each case it answers the next command, or it has ended
with the text and the status that its manual page gives. And whole runs: each command and its answer, and the put with a server
and without.

usage: tests/server.py SERVER PUT

Each case has its own server on loopback, in its own folder, and ends within five minutes.
"""
import contextlib
import json
import os
import pathlib
import pty
import select
import shutil
import socket
import subprocess
import sys
import time

from support import (
    EOF, FILE_DATA, METADATA, Wrong, case, close_run, configuration, fill, free_port, in_own_mounts, run_cases, small_disk,
    socket_of_peer, until, want,
)

SERVER, PUT = (os.path.abspath(path) for path in sys.argv[1:3])
FINISHED = "alice 1 5 Transaction-Finished "


class Server:
    """A running server, with its commands, its answers and a socket that sends to it."""

    def __init__(self, port=None, folder="received", peer=None, output=subprocess.PIPE, remote="127.0.0.1", keys="", timer=200):
        self.port = port or free_port()
        self.socket = socket.socket(socket.AF_INET, socket.SOCK_DGRAM)
        pathlib.Path("config").write_text(configuration(f"{remote}:{peer or free_port()}", timer=timer) + keys)
        self.run = subprocess.Popen(
            [SERVER, "--config", "config", "--bind", f"127.0.0.1:{self.port}", "--folder", folder, "--workers", "2"],
            stdin=subprocess.PIPE, stdout=output, stderr=subprocess.PIPE,
        )
        self.held = b""

    def send(self, *datagrams):
        for datagram in datagrams:
            self.socket.sendto(datagram, ("127.0.0.1", self.port))

    def say(self, octets):
        self.run.stdin.write(octets)
        self.run.stdin.flush()

    def line(self):
        """The next line of the server's answers."""
        end = time.monotonic() + 60
        while b"\n" not in self.held:
            if not select.select([self.run.stdout], [], [], max(0.0, end - time.monotonic()))[0]:
                raise Wrong("no answer came within 60 seconds")
            octets = os.read(self.run.stdout.fileno(), 65_536)
            if not octets:
                raise Wrong(f"it ended: {self.ended()}")
            self.held += octets
        line, self.held = self.held.split(b"\n", 1)
        return line.decode()

    def ask(self, command):
        self.say(command.encode() + b"\n")
        return self.line()

    def answers(self):
        """The next command is answered."""
        want(self.ask("trace 1 9"), "refused 1 NoTransaction")

    def takes(self, beginning):
        """Takes indications until a line begins like this; gives the line."""
        end = time.monotonic() + 240
        while time.monotonic() < end:
            line = self.ask("take alice")
            if line.startswith(beginning):
                return line
            time.sleep(0.01)
        raise Wrong(f"{beginning} was never printed")

    def comes_to(self, how_far):
        """Transaction 5 of entity 1 has come this far."""
        until(lambda: self.ask("trace 1 5") == how_far, how_far)

    def puts(self, words, seq):
        """Puts a file of alice's by these words; it gets this number."""
        want(self.ask(f"put alice 0 {words}"), "ok")
        want(self.line(), f"txn 2 {seq}")

    def finishes(self, seq, how):
        """A transaction of alice's ends like this."""
        finished = f"alice 2 {seq} Transaction-Finished "
        want(self.takes(finished), finished + how)

    def status(self):
        """The lines of a status."""
        self.say(b"status\ntrace 1 9\n")
        lines = []
        while (line := self.line()) != "refused 1 NoTransaction":
            lines.append(json.loads(line))
        return lines

    def ended(self):
        """How the server ended: its status, and what it printed."""
        try:
            status = self.run.wait(90)
        except subprocess.TimeoutExpired:
            raise Wrong("it did not end within 90 seconds") from None
        return status, self.run.stderr.read().decode()

    def quits(self):
        self.say(b"quit\n")
        want(self.ended(), (0, ""))


@contextlib.contextmanager
def server(**named):
    os.makedirs("received", exist_ok=True)
    one = Server(**named)
    try:
        yield one
    finally:
        close_run(one.run)
        one.socket.close()


@case
def datagrams_that_are_no_pdus():
    with server() as one:
        one.answers()
        one.send(b"", bytes(65_507), b"\xff" * 65_507, METADATA[:7], METADATA + b"\0")
        one.answers()
        one.send(METADATA, FILE_DATA, EOF)
        want(one.takes(FINISHED), FINISHED + "0 complete retained")
        want(pathlib.Path("received/b").read_bytes(), b"abc")
        one.quits()


@case
def a_datagram_from_elsewhere():
    with server() as one, socket.socket(socket.AF_INET, socket.SOCK_DGRAM) as other:
        one.answers()
        other.sendto(METADATA, ("127.0.0.1", one.port))
        one.send(FILE_DATA, EOF)
        want(one.takes(FINISHED), FINISHED + "0 complete retained")
        one.quits()


@case
def an_unknown_source():
    with server() as one:
        one.answers()
        one.send(METADATA[:4] + b"\x09" + METADATA[5:])
        one.answers()
        want(one.ask("trace 9 5"), "refused 23 NoRoute")
        want(one.ask("take alice"), "none")
        one.quits()


@case
def a_file_that_a_resume_hands_over():
    """A file of class 2 becomes whole while its transaction is suspended. The reply to the resume names the deposit."""
    with server(timer=60_000) as one:
        parts = [bytes([part[0] & ~4]) + part[1:] for part in (METADATA, FILE_DATA, EOF)]
        one.answers()
        one.send(parts[0], parts[2])
        one.comes_to("trace 2 open")
        want(one.ask("suspend alice 1 5"), "ok")
        one.send(parts[1])
        one.comes_to("trace 4 open")
        want((one.ask("resume alice 1 5"), one.line()), ("ok", "deposit 4"))
        want(one.takes(FINISHED), FINISHED + "0 complete retained")
        one.quits()


@case
def a_remote_that_nobody_answers_at():
    pathlib.Path("a").write_bytes(bytes(10_000))
    with server() as one:
        one.puts("2 1 a b", 2)
        one.finishes(2, "1 incomplete unreported")
        one.puts("1 1 a b closure", 4)
        one.finishes(4, "10 incomplete unreported")
        one.quits()


@case
def a_remote_that_can_not_be_sent_to():
    """Each send fails, since the socket has no permission to send there: as if nobody answered. The status counts them."""
    pathlib.Path("a").write_bytes(bytes(1_000))
    with server(remote="255.255.255.255") as one:
        one.answers()
        one.send(bytes.fromhex("20000a0001050204006162630000000003"))
        want(one.takes("alice 1 5 "), "alice 1 5 EOF-Recv")
        one.puts("2 1 a b", 2)
        one.finishes(2, "1 incomplete unreported")

        def are_alike():
            """A send may fail between two lines of a status."""
            lines = one.status()
            counters, [remote] = lines[0]["counters"], [line for line in lines if line["kind"] == "remote"]
            # at least the ACK of the EOF that came, the Metadata, the File Data in four parts and the EOF
            want((counters["datagrams_out"], counters["failed_sends"] >= 7), (0, True))
            return remote["failed_sends"] == counters["failed_sends"]

        until(are_alike, "one number of failed sends in both lines")
        one.quits()


@case
def a_file_at_the_limit():
    """A file of 16 MiB may be put; one with an octet more may not, and nothing of it is sent."""
    for name, octets in (("large", 16_777_216), ("larger", 16_777_217)):
        with open(name, "wb") as file:
            file.truncate(octets)
    with server() as one:
        want(one.ask("put alice 0 1 1 larger b"), "refused 10 TooLarge")
        one.puts("1 1 large b", 2)
        one.finishes(2, "0 incomplete unreported")
        one.quits()


@case
def a_pipe_in_a_files_place():
    """It is no file, even if somebody writes to it; the commands after it are carried out."""
    os.mkfifo("pipe")
    with server() as one:
        want(one.ask("put alice 0 1 1 pipe b"), "read fault")
        end = os.open("pipe", os.O_RDWR | os.O_NONBLOCK)
        os.write(end, b"abc")
        want(one.ask("put alice 0 1 1 pipe b"), "read fault")
        os.close(end)
        one.answers()
        one.quits()


@case
def files_without_a_checksum():
    """One is put, and one is received whose EOF has any checksum, with the large file flag, which is allowed."""
    pathlib.Path("a").write_bytes(b"abc")
    with socket_of_peer() as peer:
        with server(peer=peer.getsockname()[1], keys='checksum = "null"\n') as one:
            one.puts("1 1 a b", 2)
            for octets in ("24000a00020201070f0000000301610162", "3400070002020100000000616263",
                           "24000a0002020104000000000000000003"):
                want(peer.recv(65_536).hex(), octets)
            one.send(bytes.fromhex("25000e00010502070f000000000000000301610162"),
                     bytes.fromhex("35000b000105020000000000000000616263"),
                     bytes.fromhex("25000e000105020400010203040000000000000003"))
            want(one.takes(FINISHED), FINISHED + "0 complete retained")
            want(pathlib.Path("received/b").read_bytes(), b"abc")
            one.quits()


@case
def a_port_that_is_taken():
    with server() as one:
        one.answers()
        with server(port=one.port) as second:
            want(second.ended(), (1, "cfdp_server: bind fault\n"))
        one.answers()
        one.quits()


@case
def a_folder_that_is_read_only():
    with small_disk("received", "ro"):
        rejects()


@case
def a_folder_that_goes_away():
    rejects(lambda: shutil.rmtree("received"))


@case
def a_folder_that_is_full():
    with small_disk("received", "size=8k"):
        fill("received/full")
        rejects()


def rejects(act=lambda: None):
    """The server reports a received file as rejected, and keeps running. The act comes before the file."""
    with server() as one:
        one.answers()
        act()
        one.send(METADATA, FILE_DATA, EOF)
        want(one.takes(FINISHED), FINISHED + "4 incomplete rejected")
        one.answers()
        one.quits()


@case
def commands_that_end_within_a_line():
    with server() as one:
        one.say(b"take alice\ntrace 1 9")
        one.run.stdin.close()
        want(one.line(), "none")
        want(one.line(), "refused 1 NoTransaction")
        want(one.ended(), (0, ""))


@case
def odd_lines():
    """Lines that are too long or aren't text are bad commands, and the lines after them are read."""
    with server() as one:
        one.say(b"x" * 300_000 + b"\ntake alice\n\xff\xfe\ntake \xc3\xa9\ntake alice\n" + b"y" * 131_201)
        one.run.stdin.close()
        for answer in ("bad command", "none", "bad command", "bad command", "none", "bad command"):
            want(one.line(), answer)
        want(one.ended(), (0, ""))


@case
def an_output_that_is_closed():
    reading, writing = os.pipe()
    with server(output=writing) as one:
        os.close(writing)
        os.close(reading)
        with contextlib.suppress(OSError):
            one.say(b"take alice\n" * 2)
            one.run.stdin.close()
        want(one.ended(), (1, "cfdp_server: write fault\n"))


@case
def many_bad_commands():
    with server() as one:
        for _ in range(100):
            one.say(b"no command\n" * 1_000)
            for _ in range(1_000):
                want(one.line(), "bad command")
        one.answers()
        one.quits()


BOB = '[[user]]\nname = "bob"\n'
# Lines of commands, and their answers; the server ends with the lines.
COMMANDS = [
    ("report alice 1 5\ntake alice\ntrace 1 5\nbogus\nquit\n", "refused 1 NoTransaction\nnone\nrefused 1 NoTransaction\nbad command\n"),
    ("", ""),
    ("quit", ""),
    ("take bob", "none\n"),
    ("take carol\n", "bad command\n"),
    ("\n# quit\n quit\nquit \nquit now\nQUIT\n", "bad command\n" * 6),
    ("put alice 0 2 1 nowhere b\nput alice 2 2 1 s b\nput alice 0 3 1 s b\n", "read fault\nbad command\nbad command\n"),
    ("put alice 0 2 9 s b\ntrace 9 1\ncancel bob 9 9\n", "refused 25 UnknownRemote\nrefused 23 NoRoute\nrefused 23 NoRoute\n"),
    ("put alice 0 2 1 s b\ntake alice\ntrace 2 8\ntrace 2 0\nsuspend bob 2 4\n",
     "ok\ntxn 2 4\nalice 2 4 Transaction\nrefused 1 NoTransaction\nrefused 2 OldTransaction\nrefused 24 NotYours\n"),
    ("quit\ntake alice\n", ""),
    # files are being sent, and nobody answers them
    ("put alice 0 2 1 s b\nquit\ntake alice\n", "ok\ntxn 2 4\n"),
    ("put alice 0 2 1 s b\nput bob 1 1 1 s b", "ok\ntxn 2 4\nok\ntxn 2 7\n"),
]


@case
def commands_and_their_answers():
    pathlib.Path("s").write_bytes(b"abc")
    for lines, answers in COMMANDS:
        with server(keys=BOB, timer=60_000) as one:
            one.say(lines.encode())
            one.run.stdin.close()
            want((lines, one.ended(), one.run.stdout.read().decode()), (lines, (0, ""), answers))


@case
def a_user_without_room_for_the_end():
    """A user's queue is full, so the end of a file that is stored can't be indicated, and is tried again and again: the server ends
    nevertheless."""
    with server(timer=60_000) as one:
        one.answers()
        one.send(METADATA, FILE_DATA)
        one.comes_to("trace 2 open")
        # with the Metadata, the segment and the EOF as many bundles as wait for a user
        for _ in range(61):
            want(one.ask("report alice 1 5"), "ok")
        one.send(EOF)
        one.comes_to("trace 64 open")
        until(lambda: os.path.exists("received/b"), "the file")
        want((one.ask("report alice 1 5"), one.ask("trace 1 5")), ("refused 13 QueueFull", "trace 64 open"))
        one.quits()


def put(config, port, *words):
    """A put, which has ended: its status, what it printed, and what a terminal showed of it."""
    person, program = pty.openpty()
    line = [PUT, "--config", config, "--bind", f"127.0.0.1:{port}", "--user", "alice", "--remote", "2", *words]
    run = subprocess.run(line, stdin=subprocess.DEVNULL, stdout=subprocess.PIPE, stderr=program, timeout=120, check=False)
    os.close(program)
    shown = b""
    with contextlib.suppress(OSError):
        while octets := os.read(person, 65_536):
            shown += octets
    os.close(person)
    return run.returncode, run.stdout.decode(), shown.decode()


@case
def puts_that_nobody_answers():
    """In class 2 the file is not acknowledged, and in class 1 with closure no Finished PDU is received."""
    pathlib.Path("a").write_bytes(b"abc")
    for words, condition in ((("--class", "2"), 1), (("--class", "1", "--closure"), 10)):
        pathlib.Path("putter").write_text(configuration(f"127.0.0.1:{free_port()}", ("alice", "bob"), timer=50, id=1, remote=2))
        status, told, shown = put("putter", 0, *words, "a", "b")
        want((status, told), (2, f"alice 1 4 Transaction\nalice 1 4 EOF-Sent\nalice 1 4 Transaction-Finished {condition} incomplete unreported\n"))
        want("\r3 of 3 octets sent, waiting for the end" in shown, True)


@case
def puts_to_a_server():
    """A file in class 2, whose complete delivery both ends report; one in class 1, whose sender is not notified of its delivery; and one
    in class 1 with closure, whose sender is."""
    pathlib.Path("a").write_bytes(b"abc")
    port = free_port()
    with server(peer=port, timer=3_000) as one:
        one.answers()
        text = configuration(f"127.0.0.1:{one.port}", ("alice", "bob"), timer=3_000, limit=10, id=1, remote=2)
        pathlib.Path("putter").write_text(text)
        for words, seq, name, status in ((("--class", "2"), 4, "b", 0), (("--first", "2", "--class", "1"), 8, "c", 2),
                                         (("--first", "3", "--class", "1", "--closure"), 12, "d", 0)):
            want(put("putter", port, *words, "a", name)[0], status)
            finished = f"alice 1 {seq} Transaction-Finished "
            want(one.takes(finished), finished + "0 complete retained")
            want(pathlib.Path("received", name).read_bytes(), b"abc")
        one.quits()


in_own_mounts()
run_cases("a running server")
