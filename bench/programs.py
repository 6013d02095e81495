"""Measures the server and the put: a transfer beside a plain blast of datagrams, what a datagram costs a server in system calls
and processor time by its workers, how many datagrams a second it takes, and what a server costs that has nothing to do.

usage: programs.py SERVER PUT BENCHES

The transfer is one of 4 MiB in class 2 over loopback, without loss; the blast sends as many datagrams of the size of its File
Data PDUs from one socket to another, through the program `benches`. A server under load is sent good File Data PDUs of eight
transactions in class 1, a lane each, more than it can take; what it has taken is told by its own `trace`. Below the rows stand
their bars, for a machine with four processors and no other work.
"""

import contextlib
import os
import pathlib
import platform
import random
import socket
import subprocess
import sys
import tempfile
import threading
import time

import bars

sys.path.insert(0, str(pathlib.Path(__file__).resolve().parent.parent / "tests"))
from support import Client, station_text  # noqa: E402

RUNS = 5

# The file, and the segment of it that a PDU has, after a header and an offset of 11 octets.
FILE_OCTETS = 4 * 1024 * 1024
PART = 1_400
HEAD = 11

# How many workers a server has under load, how often that is measured, for how many seconds at most, and how many events a
# transaction may take meanwhile: it can take 262,144.
WORKERS = [1, 2, 4]
LOADS = 3
SECONDS = 1.5
EVENTS = 55_000

# The transactions of a server under load, by their sequence numbers, and the segment that arrives again and again.
TRANSACTIONS = range(1, 9)
LOAD_PART = 1_000

IDLE_SECONDS = 10.0

# The bars: how many times as long as the blast the transfer may take, which part of one worker's speed several workers
# have at least, and how much processor time an idle server may take.
TRANSFER = 3.3
SLOWER = 0.9
IDLE = 0.1

# A file for counting system calls, at a rate at which the receive buffer doesn't overflow while `strace` slows the
# server, and how many calls a datagram may cost with one worker and with four. Processor time is measured with a file
# without a rate.
COUNTED_OCTETS = 16 * 1024 * 1024
COUNTED_RATE = 8_000_000
CALLS = {1: {"futex": 0.3, "write": 0.1, "mprotect": 0.02}, 4: {"futex": 0.5, "write": 0.1, "mprotect": 0.02}}

# How much processor time a datagram may take with four workers, as a multiple of that with one.
FOUR_WORKERS = 1.2

CONFIGS = pathlib.Path(__file__).resolve().parent.parent / "examples" / "transfer"


def free_ports(count):
    """Ports that nobody listens at."""
    found = [socket.socket(socket.AF_INET, socket.SOCK_DGRAM) for _ in range(count)]
    for one in found:
        one.bind(("127.0.0.1", 0))
    ports = [one.getsockname()[1] for one in found]
    for one in found:
        one.close()
    return ports


def configure(name, peer, lanes=2):
    """Writes a configuration whose remote entity listens at a port, and answers its path."""
    text = (CONFIGS / name).read_text().replace("@PEER@", str(peer))
    pathlib.Path(name).write_text(text.replace("recv_lanes = 2", f"recv_lanes = {lanes}"))
    return name


def processor_seconds(pid):
    """The processor time that a process has taken."""
    fields = pathlib.Path(f"/proc/{pid}/stat").read_text().rpartition(")")[2].split()
    return (int(fields[11]) + int(fields[12])) / os.sysconf("SC_CLK_TCK")


def minor_faults(pid):
    """How many page faults a process has had for which nothing was read from a disk."""
    return int(pathlib.Path(f"/proc/{pid}/stat").read_text().rpartition(")")[2].split()[7])


class Server:
    """An entity by options, which answers commands of the standard input."""

    def __init__(self, program, config, port, words=()):
        pathlib.Path("received").mkdir(exist_ok=True)
        line = [program, "--config", config, "--bind", f"127.0.0.1:{port}", "--folder", "received", *words]
        self.process = subprocess.Popen(line, stdin=subprocess.PIPE, stdout=subprocess.PIPE, text=True)

    def ask(self, command):
        """Asks something, and answers the line that comes."""
        self.tell(command)
        line = self.process.stdout.readline()
        return line if line else sys.exit("the server ended")

    def tell(self, command):
        self.process.stdin.write(f"{command}\n")
        self.process.stdin.flush()

    def spent(self):
        return processor_seconds(self.process.pid)

    def end(self):
        self.tell("quit")
        if self.process.wait(timeout=30):
            sys.exit("the server failed")


class Station:
    """A station by its file, as it runs as a service: it takes what users receive itself, and nobody follows."""

    def __init__(self, program, config, port, told=(), workers=4, tool=(), **around):
        pathlib.Path("received").mkdir(exist_ok=True)
        text = station_text(pathlib.Path(config).read_text(), f"127.0.0.1:{port}", "received", "control", told, workers)
        pathlib.Path("station.toml").write_text(text)
        self.process = subprocess.Popen([*tool, program, "station.toml"], stdin=subprocess.DEVNULL, stderr=subprocess.DEVNULL, **around)
        wait_for(lambda: os.path.exists("control"), 60)
        self.client = Client("control", 120)

    def spent(self):
        return processor_seconds(self.process.pid)

    def end(self, seconds=30):
        self.client.ask("quit")
        self.client.close()
        if self.process.wait(timeout=seconds):
            sys.exit("the station failed")


@contextlib.contextmanager
def standing(*words, **more):
    """A station for as long as the block runs."""
    station = Station(*words, **more)
    try:
        yield station
        station.end()
    finally:
        station.process.kill()
        station.process.wait()


@contextlib.contextmanager
def serving(*words, **more):
    """A server for as long as the block runs."""
    server = Server(*words, **more)
    try:
        yield server
        server.end()
    finally:
        server.process.kill()
        server.process.wait()


def wait_for(holds, seconds=10.0):
    """Waits until something holds."""
    end = time.monotonic() + seconds
    while not holds():
        if time.monotonic() > end:
            sys.exit("the server doesn't answer")
        time.sleep(0.01)


def timed(words, output=subprocess.DEVNULL):
    """Runs a program, and answers its seconds and its processor time."""
    start = time.perf_counter()
    process = subprocess.Popen(words, stdout=output)
    _, status, usage = os.wait4(process.pid, 0)
    process.returncode = os.waitstatus_to_exitcode(status)
    if process.returncode:
        sys.exit(f"{words[0]} ended with status {process.returncode}")
    return time.perf_counter() - start, usage.ru_utime + usage.ru_stime


def transfer(server_program, put_program, workers=4, more=()):
    """Moves a file, and answers the seconds that the put takes, its processor time and the server's."""
    at_server, at_put = free_ports(2)
    configs = configure("ground.toml", at_put), configure("spacecraft.toml", at_server)
    with standing(server_program, configs[0], at_server, workers=workers) as server:
        before = server.spent()
        words = ["--bind", f"127.0.0.1:{at_put}", "--user", "alice", "--remote", "2", "--class", "2", *more]
        took, spent = timed([put_program, "--config", configs[1], *words, "image", "image.received"])
        spent_there = server.spent() - before
    received = pathlib.Path("received", "image.received")
    if received.read_bytes() != pathlib.Path("image").read_bytes():
        sys.exit("the received file differs")
    received.unlink()
    return took, spent, spent_there


def calls(server_program, put_program, workers):
    """Moves a file to a server under `strace`, and answers how often it made each call, by datagram that it read."""
    wrapper = pathlib.Path("traced")
    wrapper.write_text(f'#!/bin/sh\nexec strace -f -c -o calls {server_program} "$@"\n')
    wrapper.chmod(0o755)
    transfer(os.path.realpath(wrapper), put_program, workers, ["--rate", str(COUNTED_RATE)])
    counted = {}
    for line in pathlib.Path("calls").read_text().splitlines():
        words = line.split()
        if len(words) >= 5 and words[3].isdigit():
            counted[words[-1]] = int(words[3])
    return {name: count / counted["recvfrom"] for name, count in counted.items()}


def blast(benches, datagrams):
    """Sends datagrams, and answers the seconds and the processor time that it takes."""
    with open("came", "w+", encoding="ascii") as came:
        took, spent = timed([benches, "blast", str(datagrams), str(HEAD + PART)], came)
        came.seek(0)
        if int(came.read()) != datagrams:
            sys.exit("not all datagrams of the blast came")
    return took, spent


def pdu(first, sequence, field):
    """A PDU in class 1 from entity 1 to entity 2."""
    return bytes([first]) + len(field).to_bytes(2, "big") + bytes([0, 1, sequence, 2]) + field


def metadata(sequence):
    return pdu(0x24, sequence, bytes([7, 0]) + LOAD_PART.to_bytes(4, "big") + b"\x01a\x01b")


def part(sequence):
    return pdu(0x34, sequence, bytes(4) + bytes(LOAD_PART))


class Load(threading.Thread):
    """Sends parts of all transactions to a port, in turns, until it is told to stop."""

    def __init__(self, port):
        super().__init__()
        self.port, self.ends, self.sent = port, threading.Event(), 0

    def run(self):
        parts = [part(sequence) for sequence in TRANSACTIONS]
        with socket.socket(socket.AF_INET, socket.SOCK_DGRAM) as way:
            way.connect(("127.0.0.1", self.port))
            while not self.ends.is_set():
                for datagram in parts:
                    way.send(datagram)
                self.sent += len(parts)


def entries(server, sequence):
    """The moment, and how many events a transaction has taken by then."""
    words = server.ask(f"trace 1 {sequence}").split()
    return time.perf_counter(), int(words[1]) if words[0] == "trace" else 0


def open_all(server, port):
    """Has a file begin to come in each lane, once the server listens."""
    server.ask("take alice")
    with socket.socket(socket.AF_INET, socket.SOCK_DGRAM) as way:
        for sequence in TRANSACTIONS:
            way.sendto(metadata(sequence), ("127.0.0.1", port))
            wait_for(lambda: entries(server, sequence)[1] > 0)


def load(program, workers):
    """Answers how many datagrams a second a server takes, and how many it is sent."""
    port, nobody = free_ports(2)
    config = configure("ground.toml", nobody, lanes=len(TRANSACTIONS))
    with serving(program, config, port, words=["--workers", str(workers)]) as server:
        open_all(server, port)
        sender = Load(port)
        sender.start()
        time.sleep(0.2)
        start, sent = time.perf_counter(), sender.sent
        first = [entries(server, sequence) for sequence in TRANSACTIONS]
        last = first
        while time.perf_counter() - start < SECONDS and max(count for _, count in last) < EVENTS:
            time.sleep(0.05)
            last = [entries(server, sequence) for sequence in TRANSACTIONS]
        offered = (sender.sent - sent) / (time.perf_counter() - start)
        sender.ends.set()
        sender.join()
    return sum((b[1] - a[1]) / (b[0] - a[0]) for a, b in zip(first, last)), offered


def idle(program):
    """The processor time that a server takes which has nothing to do."""
    port, nobody = free_ports(2)
    with serving(program, configure("ground.toml", nobody), port) as server:
        server.ask("take alice")
        time.sleep(0.5)
        before = server.spent()
        time.sleep(IDLE_SECONDS)
        return server.spent() - before


def compare_transfer(server, put, benches):
    datagrams = -(-FILE_OCTETS // PART)
    pathlib.Path("image").write_bytes(random.Random(7).randbytes(FILE_OCTETS))
    files = [transfer(server, put) for _ in range(RUNS)]
    blasts = [blast(benches, datagrams) for _ in range(RUNS)]
    best, plain = min(files), min(blasts)
    print(
        f"a file of 4 MiB in class 2: {best[0]:.3f} s, the slowest run {max(files)[0]:.3f} s;"
        f" processor time of the put {best[1]:.2f} s, of the server {best[2]:.2f} s"
    )
    print(
        f"a blast of {datagrams:,} datagrams of {HEAD + PART:,} octets: {plain[0]:.3f} s,"
        f" the slowest run {max(blasts)[0]:.3f} s; processor time {plain[1]:.2f} s"
    )
    times = best[0] / plain[0]
    bars.show_bar(f"the file takes {times:.1f} times as long as the blast, at most {TRANSFER}", times <= TRANSFER)


def count_calls(server, put):
    """The system calls of a server by its workers, where `strace` is there."""
    if not bars.has_tool("strace", "system calls are not counted"):
        return
    for workers, most in CALLS.items():
        each = calls(server, put, workers)
        told = ", ".join(f"{name} {each.get(name, 0):.3f}" for name in ("recvfrom", "sendto", *most))
        print(f"{workers} workers, calls by datagram at {COUNTED_RATE:,} octets a second: {told}")
        for name, bar in most.items():
            bars.show_bar(f"{name} {each.get(name, 0):.3f}, at most {bar}", each.get(name, 0) <= bar)


def compare_processor_time(server, put):
    """The processor time that a datagram takes, by workers: the least of some runs."""
    datagrams = -(-COUNTED_OCTETS // PART)
    each = {}
    for workers in CALLS:
        runs = [transfer(server, put, workers) for _ in range(RUNS)]
        each[workers] = min(spent for _, _, spent in runs) / datagrams * 1e6
        of_put = min(spent for _, spent, _ in runs) / datagrams * 1e6
        print(f"{workers} workers: {each[workers]:.1f} microseconds of processor time a datagram; the put {of_put:.1f}")
    bars.show_bar(f"four workers take {each[4] / each[1]:.2f} times what one takes, at most {FOUR_WORKERS}", each[4] <= FOUR_WORKERS * each[1])


def compare_workers(server):
    runs = {workers: [] for workers in WORKERS}
    for _ in range(LOADS):
        for workers in WORKERS:
            runs[workers].append(load(server, workers))
    for workers, taken in runs.items():
        best = max(taken)
        print(
            f"{workers} workers: {best[0]:>10,.0f} datagrams of {HEAD + LOAD_PART:,} octets a second,"
            f" the slowest run {min(taken)[0]:>10,.0f}; {best[1]:>10,.0f} a second were sent"
        )
    one = max(runs[WORKERS[0]])[0]
    least = min(max(taken)[0] for taken in runs.values()) / one
    bars.show_bar(f"several take {least:.2f} of what one does at least, no less than {SLOWER}", least >= SLOWER)


def main():
    server, put, benches = map(os.path.realpath, sys.argv[1:4])
    print(f"machine: {platform.machine()}, {os.cpu_count()} processors, {platform.system()}", flush=True)
    with tempfile.TemporaryDirectory() as folder:
        os.chdir(folder)
        compare_transfer(server, put, benches)
        pathlib.Path("image").write_bytes(random.Random(8).randbytes(COUNTED_OCTETS))
        count_calls(server, put)
        compare_processor_time(server, put)
        compare_workers(server)
        spent = idle(server)
        print(f"a server that has nothing to do: {spent:.2f} s of processor time in {IDLE_SECONDS:.0f} seconds")
        bars.show_bar(f"at most {IDLE} s", spent <= IDLE)
        os.chdir("/")
    bars.end()


if __name__ == "__main__":
    main()
