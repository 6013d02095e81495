#!/usr/bin/env python3
"""Transaction numbers over restarts: programs that are killed at any moment never use one twice, as a peer's PDUs show.

usage: tests/numbers.py SERVER PUT

Everything is on loopback, in its own folder, and ends within two minutes.
"""
import contextlib
import os
import pathlib
import random
import shutil
import socket
import subprocess
import sys
import tempfile
import time

from support import Wrong, close_run, configuration, fastest, station_text, want

SERVER, PUT = (os.path.abspath(path) for path in sys.argv[1:3])
KILLS = 100

# A file of numbers covers 64 at once.
PUTS_OF_A_LANE = 80


class Peer:
    """The entity that files are sent to: it receives datagrams and answers none."""

    def __init__(self, octets=4, first=1):
        self.octets = octets
        self.socket = socket.socket(socket.AF_INET, socket.SOCK_DGRAM)
        self.socket.bind(("127.0.0.1", 0))
        self.socket.setsockopt(socket.SOL_SOCKET, socket.SO_RCVBUF, 4_000_000)
        self.socket.setblocking(False)
        self.write_config(first)

    def write_config(self, first, lanes=2):
        port = self.socket.getsockname()[1]
        pathlib.Path("config").write_text(
            configuration(f"127.0.0.1:{port}", ("alice", "bob"), octets=self.octets, first=first, put_lanes=lanes,
                          recv_lanes=1, capacity=1_024))

    def numbers(self):
        """The numbers of the transactions whose Metadata was received since the last call."""
        found = []
        while True:
            try:
                datagram = self.socket.recv(2_048)
            except BlockingIOError:
                return found
            end = 5 + self.octets
            if len(datagram) > end + 1 and datagram[end + 1] == 7:
                found.append(int.from_bytes(datagram[5:end], "big"))


@contextlib.contextmanager
def server(*options):
    text = station_text(pathlib.Path("config").read_text(), "127.0.0.1:0", "files", "control", options, workers=1)
    pathlib.Path("station.toml").write_text(text)
    run = subprocess.Popen([SERVER, "station.toml"], stdin=subprocess.DEVNULL, stdout=subprocess.PIPE, stderr=subprocess.PIPE)
    try:
        yield run
    finally:
        close_run(run)


def connected(run):
    end = time.monotonic() + 60
    while True:
        client = socket.socket(socket.AF_UNIX)
        client.settimeout(60)
        try:
            client.connect("control")
            return client
        except OSError:
            client.close()
            if run.poll() is not None or time.monotonic() > end:
                raise Wrong(f"nobody answers at the socket: {run.stderr.read().decode()}") from None
            time.sleep(0.005)


def ask(client, command):
    client.sendall(command.encode() + b"\n")
    held = b""
    while not held.endswith(b"\n.\n"):
        octets = client.recv(65_536)
        if not octets:
            raise Wrong("the server went away")
        held += octets
    return held.decode().splitlines()[:-1]


def ended(*options):
    """The end of a server that can't start."""
    with server(*options) as run:
        try:
            status = run.wait(60)
        except subprocess.TimeoutExpired:
            raise Wrong("it did not end") from None
        return status, run.stderr.read().decode().splitlines()[0] + "\n"


def killed_servers(peer, chance):
    """A server is killed at random moments of many Puts, again and again."""
    seen = set()
    for _ in range(KILLS):
        with server("sending.numbers = 'numbers'") as run:
            client = connected(run)
            puts = b"".join(b"put %s %d 1 1 file to\n" % (user, lane) for user in (b"alice", b"bob") for lane in (0, 1))
            client.sendall(puts * 50)
            # after so many octets of answers, and a little later
            left = chance.randrange(1_500)
            while left > 0:
                left -= len(client.recv(left)) or left
            time.sleep(chance.random() * 0.005)
            run.kill()
            run.wait()
            client.close()
        here = peer.numbers()
        if len(set(here)) != len(here):
            raise Wrong("a number came twice from one run")
        if seen & set(here):
            raise Wrong(f"numbers came again after a restart: {sorted(seen & set(here))}")
        seen |= set(here)
    if len(seen) < KILLS:
        raise Wrong(f"only {len(seen)} numbers came: the test says nothing")
    return len(seen)


def a_killed_lane(peer):
    """More Puts in one lane than the file of numbers covers at once, a kill, and no number comes again."""
    seen = []
    for count in (PUTS_OF_A_LANE, 1):
        with server("sending.numbers = 'lane-numbers'") as run:
            client = connected(run)
            end, here = time.monotonic() + 60, []
            while len(here) < count and time.monotonic() < end:
                reply = ask(client, "put alice 0 1 1 file to")
                if reply[0] == "ok":
                    here.append(int(reply[1].split()[2]))
            run.kill()
            run.wait()
            client.close()
        seen += here
    want((len(seen), seen), (PUTS_OF_A_LANE + 1, sorted(set(seen))))
    peer.numbers()


def killed_puts(peer, chance):
    """The put is killed at random moments of its run, which are drawn over what the fastest whole run takes."""
    seen = set()
    words = ["--config", "config", "--bind", "127.0.0.1:0", "--user", "alice", "--remote", "1", "--class", "1"]
    words = [PUT, *words, "--numbers", "put-numbers", "file", "to"]
    whole = fastest(3, lambda: subprocess.run(words, stdout=subprocess.DEVNULL, timeout=60, check=False))
    for _ in range(KILLS):
        run = subprocess.Popen(words, stdout=subprocess.DEVNULL)
        time.sleep(chance.random() * 1.5 * whole)
        run.kill()
        run.wait()
        here = set(peer.numbers())
        if seen & here:
            raise Wrong(f"numbers came again from the put: {sorted(seen & here)}")
        seen |= here
    if len(seen) < KILLS // 10:
        raise Wrong(f"only {len(seen)} numbers came from the put: the test says nothing")
    return len(seen)


def faults(peer):
    """Files without a number, that can't be written, or that another program uses."""
    for text in (b"", b"5x\n", b"\xff\n", b"9223372036854775808\n"):
        pathlib.Path("odd").write_bytes(text)
        want(ended("sending.numbers = 'odd'"), (1, "cfdp_server: numbers fault\n"))
        want(pathlib.Path("odd").read_bytes(), text)
    want(ended("sending.numbers = 'nowhere/numbers'"), (1, "cfdp_server: numbers fault\n"))
    os.makedirs("folder", exist_ok=True)
    want(ended("sending.numbers = 'folder'"), (1, "cfdp_server: numbers fault\n"))
    with server("sending.numbers = 'shared'") as run:
        client = connected(run)
        words = ["--config", "config", "--bind", "127.0.0.1:0", "--user", "alice", "--remote", "1", "--class", "1"]
        second = subprocess.run([PUT, *words, "--numbers", "shared", "file", "to"], capture_output=True, timeout=60, check=False)
        want((second.returncode, second.stderr), (1, b"cfdp_put: numbers fault\n"))
        want(ask(client, "put alice 0 1 1 file to")[0], "ok")
        os.unlink("shared")
        os.makedirs("shared/there")
        for _ in range(70):
            answer = ask(client, "put alice 0 1 1 file to")
        want(answer, ["numbers fault"])
        want(ask(client, "quit"), ["ok"])
        want(run.wait(60), 0)
        client.close()
    want(os.path.exists("shared.lock"), False)
    peer.numbers()


def first_numbers(peer):
    """Numbers begin at the higher of the file's and the configuration's first round: with two lanes and two users a round
    has four numbers."""
    for first, written, number in ((1, None, 4), (1, b"40\n", 40), (1, b"41\n", 44), (50, b"40", 200)):
        peer.write_config(first)
        if written is not None:
            pathlib.Path("begin").write_bytes(written)
        want(first_put("begin"), number)
        peer.numbers()


def first_put(numbers):
    """The number of a server's first Put, after which the server is killed."""
    with server(f"sending.numbers = '{numbers}'") as run:
        client = connected(run)
        [_, txn] = ask(client, "put alice 0 1 1 file to")
        client.close()
    return int(txn.split()[2])


def other_lanes(peer):
    """Numbers continue when the lanes of a user change between two runs."""
    last = 0
    for lanes in (8, 1, 2, 32, 1):
        peer.write_config(1, lanes)
        number = first_put("lanes")
        want(number > last, True)
        last = number
    peer.write_config(1)
    peer.numbers()


def short_numbers():
    """With numbers of one octet a restart uses up one round at most."""
    peer = Peer(octets=1)
    for round_here in (1, 2, 3):
        want(first_put("short"), round_here * 4)
    peer.socket.close()


def main():
    home = tempfile.mkdtemp(prefix="numbers-")
    os.chdir(home)
    chance = random.Random(1)
    try:
        pathlib.Path("file").write_bytes(b"abc")
        peer = Peer()
        servers = killed_servers(peer, chance)
        a_killed_lane(peer)
        puts = killed_puts(peer, chance)
        faults(peer)
        first_numbers(peer)
        other_lanes(peer)
        short_numbers()
    except (Wrong, OSError, subprocess.TimeoutExpired) as why:
        print(f"numbers: {type(why).__name__} {why}")
        sys.exit(1)
    finally:
        os.chdir("/")
        shutil.rmtree(home, ignore_errors=True)
    print(f"numbers: {KILLS} servers were killed, and {servers} numbers came once each; {KILLS} puts likewise, and {puts}")


main()
