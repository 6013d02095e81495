"""Counts the instructions that a File Data PDU costs a running server and a put, which vary little from run to run, and the page
faults that a datagram costs a server.

usage: datagrams.py SERVER PUT

The station runs under valgrind with one worker, as a service to which nobody listens. It is sent the Metadata and the File Data PDUs of
one transaction in class 2, in order and at a pace, so that none is lost, and then it quits; the put runs under valgrind and sends a
file to a server beside it, in class 2 and at a rate. Each does so for two sizes: the difference, by PDU, is what one PDU costs.
"""

import os
import pathlib
import random
import socket
import subprocess
import sys
import tempfile
import time
from unittest import mock

import bars
import programs

# The PDUs of the two sizes, the octets of file in each, and the seconds between two datagrams.
FEW, MANY = 400, 1_400
PART = 1_400
PAUSE = 0.0003

# How fast the put's file is sent, in octets a second, so that no datagram is lost.
RATE = 1_000_000

# The bars, in instructions a PDU.
SERVER_BAR = 7_000
PUT_BAR = 5_000

# The PDUs of a transfer of 16 MiB whose page faults are counted, and how many of them a PDU may take.
TRANSFER = 11_983
TRANSFER_RATE = 8_000_000
FAULTS_BAR = 0.6

# An environment in which the C library asks for large pages, for comparison.
LARGE_PAGES = {"MALLOC_ARENA_MAX": "1", "GLIBC_TUNABLES": "glibc.malloc.hugetlb=1"}


def counting(out):
    """The words before a program that have its instructions counted into a file."""
    return ["valgrind", "--tool=callgrind", f"--callgrind-out-file={out}"]


def counted(out):
    with open(out, encoding="utf-8", errors="replace") as told:
        return next(int(line.split()[1]) for line in told if line.startswith(("summary:", "totals:")))


def pdu(first, field):
    """A PDU in class 2 from entity 1 to entity 2, the transaction with the number 1."""
    return bytes([first]) + len(field).to_bytes(2, "big") + bytes([0, 1, 1, 2]) + field


def datagrams(parts):
    """The Metadata of a file with one part more than come, so that it doesn't end, and its File Data PDUs."""
    size = (parts + 1) * PART
    yield pdu(0x20, bytes([7, 0]) + size.to_bytes(4, "big") + b"\x01a\x01b")
    for place in range(parts):
        yield pdu(0x30, (place * PART).to_bytes(4, "big") + bytes(PART))


def taken(station):
    """How many PDUs of the transaction a station has taken."""
    words = station.client.ask("trace 1 1")[0].split()
    return int(words[1]) if words[0] == "trace" else 0


def server_cost(program, parts):
    """The instructions of a server that receives so many parts, all of which it has to have taken."""
    port, nobody = programs.free_ports(2)
    config = programs.configure("ground.toml", nobody)
    pathlib.Path("received").mkdir(exist_ok=True)
    station = programs.Station(program, config, port, workers=1, tool=counting("out"))
    with socket.socket(socket.AF_INET, socket.SOCK_DGRAM) as way:
        for datagram in datagrams(parts):
            way.sendto(datagram, ("127.0.0.1", port))
            time.sleep(PAUSE)
    programs.wait_for(lambda: taken(station) > parts, 120)
    station.end(120)
    return counted("out")


def transfer(server, put, parts, rate, tool=()):
    """Has a put, under a tool or alone, send a file of so many parts to a server; the page faults of the server meanwhile."""
    at_server, at_put = programs.free_ports(2)
    configs = programs.configure("ground.toml", at_put), programs.configure("spacecraft.toml", at_server)
    pathlib.Path("image").write_bytes(random.Random(7).randbytes(parts * PART))
    with programs.standing(server, configs[0], at_server) as running:
        time.sleep(0.3)
        before = programs.minor_faults(running.process.pid)
        words = ["--bind", f"127.0.0.1:{at_put}", "--user", "alice", "--remote", "2", "--class", "2", "--rate", str(rate)]
        command = [*tool, put, "--config", configs[1], *words, "image", "image.received"]
        if subprocess.run(command, stdout=subprocess.DEVNULL, stderr=subprocess.DEVNULL, timeout=300, check=False).returncode:
            sys.exit("the put failed")
        return programs.minor_faults(running.process.pid) - before


def put_cost(server, put, parts):
    """The instructions of a put of so many parts."""
    transfer(server, put, parts, RATE, counting("out"))
    return counted("out")


def faults_of(server, put):
    """The page faults of a server for each PDU of a transfer, those aside that the disk had to serve."""
    return transfer(server, put, TRANSFER, TRANSFER_RATE) / TRANSFER


def tell(name, few, many, bar):
    each = (many - few) / (MANY - FEW)
    print(f"{name}: {FEW:,} PDUs {few:,} instructions, {MANY:,} {many:,}: {each:,.0f} a PDU", flush=True)
    bars.show_bar(f"{each:,.0f} a PDU, at most {bar:,}", each <= bar)


def main():
    server, put = map(os.path.realpath, sys.argv[1:3])
    with tempfile.TemporaryDirectory() as folder:
        os.chdir(folder)
        faults = faults_of(server, put)
        bars.show_bar(f"{faults:.2f} page faults a PDU of a transfer of 16 MiB, at most {FAULTS_BAR}", faults <= FAULTS_BAR)
        with mock.patch.dict(os.environ, LARGE_PAGES):
            print(f"with large pages: {faults_of(server, put):.2f}", flush=True)
        if not bars.has_tool("valgrind", "what a PDU costs is not counted"):
            os.chdir("/")
            bars.end()
        tell("a server that receives, with one worker", *[server_cost(server, parts) for parts in (FEW, MANY)], SERVER_BAR)
        tell("a put", *[put_cost(server, put, parts) for parts in (FEW, MANY)], PUT_BAR)
        os.chdir("/")
    bars.end()


if __name__ == "__main__":
    main()
