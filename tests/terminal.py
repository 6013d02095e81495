#!/usr/bin/env python3
"""The script program answers line by line if its output is a terminal, and otherwise writes by blocks.

usage: tests/terminal.py PROGRAM
"""
import os
import pty
import select
import subprocess
import sys
import termios
import time

PROGRAM = os.path.abspath(sys.argv[1])
PATIENCE = 60


def read_until(descriptor, wanted, patience):
    """Reads until the expected text has come, or until the time is up."""
    held = b""
    end = time.monotonic() + patience
    while held != wanted and select.select([descriptor], [], [], max(0.0, end - time.monotonic()))[0]:
        octets = os.read(descriptor, 65_536)
        if not octets:
            break
        held += octets.replace(b"\r\n", b"\n")
    return held


def want(title, found, wanted):
    if found != wanted:
        print(f"{PROGRAM}, {title}: {found!r} in place of {wanted!r}")
        sys.exit(1)


def silent_terminal():
    """Both ends of a terminal without echo."""
    person, program = pty.openpty()
    modes = termios.tcgetattr(program)
    modes[3] &= ~termios.ECHO
    termios.tcsetattr(program, termios.TCSANOW, modes)
    return person, program


def at_a_terminal():
    person, program = silent_terminal()
    run = subprocess.Popen([PROGRAM], stdin=program, stdout=program)
    os.close(program)
    try:
        for line, answer in [(b"take alice\n", b"none\n"), (b"pump 2 4\n", b"refused 1 NoTransaction\n"),
                             (b"# no answer\ntake bob\n", b"none\n")]:
            os.write(person, line)
            want(f"at a terminal, {line!r}", read_until(person, answer, PATIENCE), answer)
        os.write(person, b"no line\n")
        want("at a terminal, a bad line", read_until(person, b"line 5: bad line\n", PATIENCE), b"line 5: bad line\n")
        want("at a terminal, its status", run.wait(PATIENCE), 1)
    finally:
        run.kill()
        run.wait()
        os.close(person)


def at_a_pipe():
    with subprocess.Popen([PROGRAM], stdin=subprocess.PIPE, stdout=subprocess.PIPE) as run:
        try:
            run.stdin.write(b"take alice\n")
            run.stdin.flush()
            want("at a pipe, before the end", read_until(run.stdout.fileno(), b"none\n", 0.5), b"")
            run.stdin.close()
            want("at a pipe", read_until(run.stdout.fileno(), b"none\n", PATIENCE), b"none\n")
            want("at a pipe, its status", run.wait(PATIENCE), 0)
        finally:
            run.kill()


at_a_terminal()
at_a_pipe()
print("the script program: line by line at a terminal, by blocks elsewhere")
