#!/usr/bin/env python3
"""Command lines and surroundings with which the server and the put don't start, and what they print, in the order of
their checks; and their help.

usage: tests/starts.py SERVER PUT

Each program runs in its own folder. No run may take longer than a minute.
"""
import os
import pathlib
import shutil
import subprocess
import sys
import tempfile

from support import configuration

SERVER, PUT = (os.path.abspath(path) for path in sys.argv[1:3])
# A word that is not UTF-8.
NO_TEXT = os.fsdecode(b"\xff")
# Command lines with which the server doesn't start, and what it prints for each.
SERVER_FAULTS = [
    ("", "usage"),
    ("--config nowhere --folder .", "usage"),
    ("--config nowhere --bind 127.0.0.1:0 --folder=", "usage"),
    ("--config nowhere --bind 127.0.0.1:0 --folder . --workers 0", "usage"),
    ("--config nowhere --bind 127.0.0.1:0 --folder . --workers 17", "usage"),
    ("--config nowhere --bind 127.0.0.1:0 --folder . --workers +4", "usage"),
    ("--config nowhere --bind localhost:7002 --folder .", "usage"),
    ("--config nowhere --bind 127.0.0.1:0 --folder . more", "usage"),
    ("--config nowhere --bind 127.0.0.1:0 --folder . --park 1", "usage"),
    ("--config nowhere nowhere", "usage"),
    ("nowhere --check nowhere", "usage"),
    ("nowhere nowhere", "usage"),
    (f"--config nowhere --bind 127.0.0.1:0 --folder {NO_TEXT}", "usage"),
    ("--config nowhere --bind 127.0.0.1:0 --folder .", "read fault"),
    ("--config no-text --bind 127.0.0.1:0 --folder .", "config fault 1"),
    ("--config bad --bind 192.0.2.1:7002 --folder .", "config fault 4"),
    ("--config good --bind 192.0.2.1:7002 --folder .", "bind fault"),
]
# Station files with which the server doesn't start, the fault, and the line that explains it.
STATION_FAULTS = [
    ("nowhere", "read fault", "nowhere: is not there"),
    ("no-text", "config fault 1", "no-text: octet 0 is not UTF-8"),
    ("good", "config fault 2", "good: [station] bind: missing; \"A.B.C.D:PORT\", in decimal and without leading zeros"),
]
# Command lines with which the put doesn't start.
PUT_FAULTS = [
    ("", "usage"),
    ("--config nowhere --bind 127.0.0.1:0 --user alice --remote 1 --class 3 f b", "usage"),
    ("--config nowhere --bind 127.0.0.1 --user alice --remote 1 --class 2 f b", "usage"),
    ("--config nowhere --bind 127.0.0.1:0 --user alice --remote 1 --class 2 f", "usage"),
    (f"--config nowhere --bind 127.0.0.1:0 --user alice --remote 1 --class 2 f {NO_TEXT}", "usage"),
    ("--config nowhere --bind 127.0.0.1:0 --user carol --remote 1 --class 2 f b", "read fault"),
    ("--config bad --bind 127.0.0.1:0 --user carol --remote 1 --class 2 f b", "config fault 4"),
    ("--config good --bind 127.0.0.1:0 --user carol --remote 1 --class 2 nowhere b", "usage"),
    ("--config good --bind 192.0.2.1:7001 --user bob --remote 9 --class 2 nowhere b", "read fault"),
    ("--config good --bind 192.0.2.1:7001 --user bob --remote 9 --class 2 f b", "bind fault"),
    ("--config good --bind 127.0.0.1:0 --user bob --remote 9 --class 2 f b", "refused 25 UnknownRemote"),
    ("--config good --bind 127.0.0.1:0 --user bob --remote 18446744073709551615 --class 2 f b", "refused 25 UnknownRemote"),
    ("--config good --bind 127.0.0.1:0 --user bob --remote 18446744073709551616 --class 2 f b", "usage"),
    ("--config=good --bind=127.0.0.1:0 --user=bob --remote=1 --class=1 --rate=0 f b", "usage"),
    ("--config nowhere --bind 127.0.0.1:0 --user bob --remote 1 --class 1 --first -1 f b", "usage"),
    ("--config nowhere --bind 127.0.0.1:0 --user bob --remote 1 --class 1 --first 9223372036854775808 f b", "usage"),
    ("--config good --bind 127.0.0.1:0 --user bob --remote 1 --class 1 --first 64 f b", "refused 9 SeqExhausted"),
    ("--config good --config good --bind 127.0.0.1:0 --user bob --remote 1 --class 1 f b", "usage"),
]
# Only the help or the version is printed. Sixteen workers serve as one does, and the folder may be missing.
SERVER_RUNS = [
    ("--help", "Receives and sends files by CFDP over UDP"),
    ("--version", "cfdp_server 0.1\n"),
    ("--config good --bind 127.0.0.1:0 --folder gone --workers 16", "none\n"),
    ("--config=good --bind=127.0.0.1:0 --folder=. --workers=01", "none\n"),
]
PUT_RUNS = [("--help", "Sends one file by CFDP over UDP"), ("--version", "cfdp_put 0.1\n")]


def ended(program, line):
    """How a program ended that was given a command: its status, its output, and its errors."""
    run = subprocess.run([program, *line.split()], input="take alice\n", capture_output=True, text=True, timeout=60, check=False)
    return run.returncode, run.stdout, run.stderr


def check(program, name, faults, runs):
    for line, why in faults:
        if ended(program, line) != (1, "", f"{name}: {why}\n"):
            sys.exit(f"{name} {line}: {ended(program, line)}, not {why}")
    for line, begin in runs:
        status, printed, told = ended(program, line)
        if (status, told) != (0, "") or not printed.startswith(begin):
            sys.exit(f"{name} {line}: {status}, {printed!r}, {told!r}")


def main():
    home = tempfile.mkdtemp(prefix="starts-")
    os.chdir(home)
    text = configuration("127.0.0.1:9", ("alice", "bob"), timer=1_000, capacity=8, inactivity=1_000)
    pathlib.Path("good").write_text(text, encoding="ascii")
    pathlib.Path("bad").write_text(text.replace("first = 1", "first = -1"), encoding="ascii")
    pathlib.Path("no-text").write_bytes(b"\xff\xfe")
    pathlib.Path("f").write_text("abc", encoding="ascii")
    try:
        check(SERVER, "cfdp_server", SERVER_FAULTS, SERVER_RUNS)
        check(PUT, "cfdp_put", PUT_FAULTS, PUT_RUNS)
        for line, why, more in STATION_FAULTS:
            if ended(SERVER, line) != (1, "", f"cfdp_server: {why}\n{more}\n"):
                sys.exit(f"cfdp_server {line}: {ended(SERVER, line)}, not {why} and {more}")
    finally:
        os.chdir("/")
        shutil.rmtree(home)
    print(f"{len(SERVER_FAULTS) + len(STATION_FAULTS) + len(PUT_FAULTS)} starts are refused as they should be")


main()
