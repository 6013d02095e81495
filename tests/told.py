#!/usr/bin/env python3
"""What a server tells only where that is asked for: which commands were given, by whom, and what came of them.

usage: tests/told.py SERVER

Each case has its own server on loopback, in its own folder, and ends within a minute.
"""
import json
import os
import pathlib
import subprocess
import sys

from support import case, configuration, run_cases, station, until, want

SERVER = os.path.abspath(sys.argv[1])


def commands(events):
    return [event for event in events if event["kind"] == "command"]


def logged(path="log"):
    return [json.loads(line) for line in pathlib.Path(path).read_text().splitlines()]


GIVEN = [
    ("hold all", "hold all", "ok"),
    ("hold 2", "hold 2", "ok"),
    ("hold 7", "hold 7", "refused UnknownRemote"),
    ("rate 2 5000", "rate 2 5000", "ok"),
    ("rate off", "rate off", "ok"),
    ("rate 9000", "rate 9000", "ok"),
    ('send alice 1 2 "a" b', "send alice 1 2 a b", "queued 1"),
    ('send bob 2 2 a "\\xff b" urgent as "c d"', 'send bob 2 2 a "\\xff b" urgent as "c d"', "queued 2"),
    ("send alice 1 2 missing b closure urgent", "send alice 1 2 missing b closure urgent", "read fault"),
    ("drop 1", "drop 1", "ok"),
    ("drop 1", "drop 1", "refused NotQueued"),
    ("put alice 0 1 2 a b closure", "put alice 0 1 2 a b closure", "ok"),
    ("suspend alice 1 2", "suspend alice 1 2", None),
    ("resume alice 1 2", "resume alice 1 2", None),
    ("cancel alice 1 2", "cancel alice 1 2", None),
    ("abandon alice 1 3", "abandon alice 1 3", None),
    ("release 2 600", "release 2 600", "ok"),
    ("release 2", "release 2", "ok"),
    ("release all", "release all", "ok"),
    ("reopen", "reopen", "ok"),
]
UNTOLD = ["status", "outbox", "trace 1 2", "report alice 1 2", "take alice", "journal 1 2", "follow 1 warning", "nonsense", "send alice"]


@case
def each_command_that_changes_something():
    """Its words, the first line of its answer, and the seat of its client are an event, in the log too."""
    with station(SERVER, options=("log.file = 'log'", "log.level = 'info'")) as (one, _):
        pathlib.Path("a").write_bytes(b"abc")
        watcher = one.client()
        want(watcher.ask("follow"), ["ok"])
        client = one.client()
        answers = []
        for line, _, answer in GIVEN:
            answers.append(client.ask(line)[0])
            if answer is not None:
                want((line, answers[-1]), (line, answer))
        for line in UNTOLD:
            client.ask(line)
        want(client.ask("hold 2"), ["ok"])
        watcher.wait_event(lambda event: len(commands(watcher.events)) > len(GIVEN), "the last command")
        told = commands(watcher.events)
        want([event["words"] for event in told], [words for _, words, _ in GIVEN] + ["hold 2"])
        want([event["answer"] for event in told], answers + ["ok"])
        want({(event["by"], event["seat"]) for event in told}, {("client", 1)})
        want(one.client().ask("quit"), ["ok"])
        want(one.run.wait(60), 0)
        of_log = commands(logged())
        want([event["words"] for event in of_log], [event["words"] for event in told] + ["quit"])
        want((of_log[-1]["seat"], {event["level"] for event in of_log}), (2, {"info"}))


@case
def nothing_if_it_is_switched_off():
    with station(SERVER, options=("log.file = 'log'", "log.commands = false")) as (one, _):
        client = one.client()
        want(client.ask("follow"), ["ok"])
        want((client.ask("hold 2"), client.ask("release 2")), (["ok"], ["ok"]))
        until(lambda: [event["kind"] for event in logged()][-2:] == ["hold", "release"], "the log")
        want(commands(logged()), [])


# Paths that can't be read, and why; the last one is no text.
UNREAD = [("gone", "is not there"), ("folder", "is a folder"), ("pipe", "not a plain file"), ("a/b", "a part of the path is not a folder"),
          ("circle", "its links lead in a circle"), ("a\\x00", "the path is too long, or has a zero octet"),
          ("\\xff", "the path is not UTF-8")]


def paths():
    pathlib.Path("a").write_bytes(b"abc")
    os.mkdir("folder")
    os.mkfifo("pipe")
    os.symlink("circle", "circle")
    if os.geteuid() == 0:
        return UNREAD
    pathlib.Path("secret").write_bytes(b"abc")
    os.chmod("secret", 0)
    return [*UNREAD, ("secret", "permission denied")]


def ask_for(client, path):
    """A file that can't be read, from a lane and by the outbox."""
    want((path, client.ask(f'put alice 0 1 2 "{path}" b')), (path, ["read fault"]))
    want((path, client.ask(f'send alice 1 2 "{path}" b')[0][:7]), (path, "queued "))


@case
def why_a_file_cannot_be_read():
    """The events of its command and of the outbox say it, and the answer is as ever."""
    unread = paths()
    reasons = [why for _, why in unread]
    with station(SERVER) as (one, _):
        client = one.client()
        want(client.ask("follow"), ["ok"])
        for path, _ in unread:
            ask_for(client, path)
        want(client.ask("send alice 1 2 gone b urgent"), ["read fault"])
        want(client.ask("send alice 1 9 gone b urgent"), ["refused 25 UnknownRemote"])
        want(client.ask("hold 2"), ["ok"])
        client.wait_event(lambda event: event.get("words") == "hold 2", "the last command")
        until_unsent = lambda event: event["kind"] == "unsent" and event["queued"] == len(unread)
        client.wait_event(until_unsent, "the last file")
        told = commands(client.events)
        want([event.get("reason") for event in told if event["words"][:4] == "put "], reasons)
        want([event.get("reason") for event in client.events if event["kind"] == "unsent"], reasons)
        want({event["why"] for event in client.events if event["kind"] == "unsent"}, {"read fault"})
        want([event.get("reason") for event in told[-3:]], [reasons[0], None, None])


run_cases("told")
