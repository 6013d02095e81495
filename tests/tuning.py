#!/usr/bin/env python3
"""A station that is changed while it runs: rates, holds, contact windows, urgent files, levels of events, and its log.

usage: tests/tuning.py SERVER

Each case has its own servers on loopback, in its own folder, and ends within a minute.
"""
import datetime
import hashlib
import json
import os
import pathlib
import random
import socket
import stat
import subprocess
import sys
import time

from support import Skipped, case, configuration, free_port, pair, run_cases, station, until, want

SERVER = os.path.abspath(sys.argv[1])


def stations(first=(), second=(), **named):
    """Two stations, 1 and 2, over a link."""
    return pair(SERVER, (first, second), **named)


def write(name, size, seed=1):
    octets = random.Random(seed).randbytes(size)
    pathlib.Path(name).write_bytes(octets)
    return hashlib.sha256(octets).hexdigest()


def received(one):
    """What a station has stored, but for the parts of files that are being stored, which come and go."""
    return {path.name: hashlib.sha256(path.read_bytes()).hexdigest() for path in one.received().iterdir()
            if not path.name.startswith(".part-")}


def remote(client):
    return [line for line in client.status() if line["kind"] == "remote"][0]


def of(client, kind):
    return [event for event in client.events if event["kind"] == kind]


def moment(text):
    return datetime.datetime.fromisoformat(text.replace("Z", "+00:00")).timestamp()


@case
def a_window_that_closes_by_itself():
    """A link that is released for five seconds is open for that long, says until when, and is then held, with an event that says so."""
    with station(SERVER, options=("station.hold = true",)) as (one, _):
        client = one.client()
        want(client.ask("follow"), ["ok"])
        begun = time.time()
        want(client.ask("release 2 5"), ["ok"])
        line = remote(client)
        want((line["held"], "held_since" in line), (False, False))
        want(begun + 4.5 < moment(line["open_until"]) < begun + 25, True)
        event = client.wait_event(lambda event: event["kind"] == "hold", "the end of the window")
        want((event["id"], event["planned"]), (2, True))
        want(time.time() - begun > 4.9, True)
        line = remote(client)
        want((line["held"], "open_until" in line), (True, False))
        want([list(event) for event in of(client, "release")], [["at", "number", "kind", "id"]])


@case
def windows_that_are_planned_no_more():
    """A release without seconds opens the link for good, and a hold before the end is no planned one."""
    with station(SERVER, options=("station.hold = true",)) as (one, _):
        client = one.client()
        want(client.ask("follow"), ["ok"])
        want((client.ask("release 2 3"), client.ask("release 2")), (["ok"], ["ok"]))
        want("open_until" in remote(client), False)
        time.sleep(3.5)
        want(remote(client)["held"], False)
        want((client.ask("release 2 3"), client.ask("hold 2")), (["ok"], ["ok"]))
        time.sleep(3.5)
        want(remote(client)["held"], True)
        want([list(event) for event in of(client, "hold")], [["at", "number", "kind", "id"]])
        for words in ("release 2 0", "release 2 86401", "release 2 x", "release 2 1 1", "release all 1", "hold all 1"):
            want((words, client.ask(words)[0]), (words, "bad command"))
        want(client.ask("release 3 1"), ["refused UnknownRemote"])


@case
def windows_with_transfers():
    """Files go in windows of a second until all are there, nothing is sent outside, and timers rest meanwhile: no limit of two seconds is
    reached."""
    with stations(first=("station.hold = true",), limit=7) as (one, other, relay):
        client = one.client()
        other.client().close()
        names = {f"file{n}": write(f"file{n}", 20_000, n) for n in range(3)}
        want(client.ask("follow"), ["ok"])
        for name in names:
            want(client.ask(f"send alice 2 2 {name} {name}")[0].split()[0], "queued")
        closed = []
        for _ in range(20):
            want(client.ask("release 2 1"), ["ok"])
            count = len(of(client, "hold"))
            client.wait_event(lambda event: event["kind"] == "hold" and event not in of(client, "hold")[:count], "the end of a window")
            begun = time.monotonic()
            time.sleep(3.5)
            closed.append((begun, time.monotonic()))
            client.status()
            if len([event for event in client.events if event.get("name") == "Transaction-Finished"]) == len(names):
                break
        want(received(other), names)
        want([event for event in client.events if event.get("name") in ("Fault", "Abandoned")], [])
        for begin, end in closed:
            # what just left may still be on its way through the relay
            want([when for when in relay.passed[0] if begin + 2 < when < end], [])


def two_links():
    """A configuration of entity 1 with the entities 2 and 3, of which nobody is there."""
    text = configuration("127.0.0.1:9", ("alice", "bob"), id=1, remote=2, octets=4, recv_lanes=4)
    other = text[text.index("[[remote]]"):].replace("id = 2", "id = 3").replace('"alice"', '"bob"')
    return text + other


def held(client):
    return [line["held"] for line in client.status() if line["kind"] == "remote"]


@case
def all_links_at_once():
    """`hold all` and `release all` hold and open all links, with an event for each that changes, and end all windows."""
    with station(SERVER, text=two_links()) as (one, _):
        client = one.client()
        want(client.ask("follow"), ["ok"])
        want(client.ask("hold 3"), ["ok"])
        want((client.ask("hold all"), client.ask("hold all"), held(client)), (["ok"], ["ok"], [True, True]))
        want((client.ask("release 2 3"), client.ask("release all"), held(client)), (["ok"], ["ok"], [False, False]))
        time.sleep(3.5)
        want(held(client), [False, False])
        want(([event["id"] for event in of(client, "hold")], [event["id"] for event in of(client, "release")]), ([3, 2], [2, 3]))
        want(client.ask("release 3 1"), ["ok"])
        want((client.ask("hold all"), held(client)), (["ok"], [True, True]))
        want([line for line in client.status() if "open_until" in line], [])


@case
def a_window_that_begins_anew():
    """A second `release` of an open link moves its end, and leaves other links alone."""
    with station(SERVER, options=("station.hold = true",), text=two_links()) as (one, _):
        client = one.client()
        want((client.ask("release 2 30"), client.ask("release 3 600")), (["ok"], ["ok"]))
        first = [moment(line["open_until"]) for line in client.status() if line["kind"] == "remote"]
        time.sleep(1)
        want(client.ask("release 2 60"), ["ok"])
        then = [moment(line["open_until"]) for line in client.status() if line["kind"] == "remote"]
        want((then[0] > first[0] + 30, abs(then[1] - first[1]) < 0.5), (True, True))


def is_held(run, remote):
    """Whether the link to a remote entity is held, by a status of the standard output. The lines of remote entities are the last but
    the note's."""
    run.stdin.write(b"status\nnothing\n")
    run.stdin.flush()
    lines = list(iter(run.stdout.readline, b"bad command\n"))
    return [line["held"] for line in map(json.loads, lines) if line["kind"] == "remote" and line["id"] == remote] == [True]


@case
def a_window_without_clients():
    """A window ends in time where commands come from the standard input, and nobody says anything more."""
    pathlib.Path("config").write_text(two_links())
    os.mkdir("received")
    words = [SERVER, "--config", "config", "--bind", f"127.0.0.1:{free_port()}", "--folder", "received"]
    run = subprocess.Popen(words, stdin=subprocess.PIPE, stdout=subprocess.PIPE, stderr=subprocess.PIPE)
    try:
        run.stdin.write(b"hold 2\nrelease 2 1\n")
        run.stdin.flush()
        want([run.stdout.readline() for _ in range(2)], [b"ok\n", b"ok\n"])
        time.sleep(2)
        until(lambda: is_held(run, 2), "the end of the window")
        run.stdin.write(b"quit\n")
        run.stdin.flush()
        want((run.wait(60), run.stdout.read()), (0, b""))
    finally:
        run.kill()
        run.wait()
        for stream in (run.stdin, run.stdout, run.stderr):
            stream.close()


@case
def rates_that_change():
    """A limit that is given to a link slows its files down at once, and they go on fast when it is lifted."""
    with stations() as (one, other, _):
        client = one.client()
        other.client().close()
        names = {"slow": write("slow", 200_000)}
        want(client.ask("follow"), ["ok"])
        want(client.ask("rate 2 10000"), ["ok"])
        want(client.ask("send alice 2 2 slow slow"), ["queued 1"])
        time.sleep(2)
        octets = remote(client)["octets_out"]
        want(5_000 < octets < 60_000, True)
        want((client.ask("rate 2 off"), client.ask("rate 1000000")), (["ok"], ["ok"]))
        until(lambda: received(other) == names, "the file")
        # the limit of all links without one of their own, and one that leaves nothing, until it is lifted
        for name, slow, fast in (("slower", "rate 20000", "rate off"), ("slowest", "rate 2 1", "rate 2 off")):
            begun = remote(client)["octets_out"]
            names[name] = write(name, 200_000, len(names))
            want((client.ask(slow), client.ask(f"send alice 2 2 {name} {name}")[0].split()[0]), (["ok"], "queued"))
            time.sleep(2)
            want(remote(client)["octets_out"] - begun < 120_000, True)
            want(client.ask(fast), ["ok"])
            until(lambda: received(other) == names, "the next file")
        want(client.ask("rate 3 1"), ["refused UnknownRemote"])
        for words in ("rate", "rate 0", "rate 2 0", "rate 2 1000000001", "rate 2 1 1", "rate on"):
            want((words, client.ask(words)[0]), (words, "bad command"))


@case
def the_limit_that_holds_is_in_the_status():
    """The status says which limit holds for each link: its own, or else the one that the others share. Those of the station's file count."""
    options = ("sending.rate = 7000", "remote[3].rate = 500")
    with station(SERVER, options=options, text=two_links()) as (one, _):
        client = one.client()
        limits = lambda: [line.get("rate") for line in client.status() if line["kind"] == "remote"]
        want(limits(), [7_000, 500])
        for words, shown in (("rate 2 8000", [8_000, 500]), ("rate 9000", [8_000, 500]), ("rate 2 off", [9_000, 500]),
                             ("rate 3 off", [9_000, 9_000]), ("rate off", [None, None]), ("rate 3 1000000000", [None, 1_000_000_000])):
            want((words, client.ask(words), limits()), (words, ["ok"], shown))
        want((client.ask("rate 4 1"), limits()), (["refused UnknownRemote"], [None, 1_000_000_000]))


@case
def urgent_files():
    """An urgent file goes before those of its user that wait, and another name is told to the receiver."""
    with stations(first=("station.hold = true",), lanes=1) as (one, other, _):
        client, peer = one.client(), other.client()
        want((client.ask("follow"), peer.ask("follow")), (["ok"], ["ok"]))
        for name in "abc":
            write(name, 1_000)
        want(client.ask("send alice 2 2 a a"), ["queued 1"])
        want(client.ask("send alice 2 2 b b"), ["queued 2"])
        want(client.ask('send alice 2 2 c c urgent as "other name"'), ["queued 3"])
        want(client.ask("release 2"), ["ok"])
        for _ in range(3):
            count = len(of(client, "put"))
            client.wait_event(lambda event: event["kind"] == "put" and event not in of(client, "put")[:count], "a put")
        want([(event["queued"], event["file"]) for event in of(client, "put")], [(3, "c"), (1, "a"), (2, "b")])
        until(lambda: len(received(other)) == 3, "all files")
        peer.status()
        told = {event["to"]: event["file"] for event in peer.events if event.get("name") == "Metadata-Recv"}
        want(told, {"a": "a", "b": "b", "c": "other name"})


@case
def what_is_refused_at_once():
    """With a word that asks for more a file is looked at before it waits; without one it is as it was."""
    with station(SERVER, options=("station.hold = true",)) as (one, _):
        client = one.client()
        write("a", 10)
        os.truncate("a", 16_777_217)
        os.mkdir("folder")
        write("b", 10)
        want(client.ask("send alice 2 2 gone x urgent"), ["read fault"])
        want(client.ask("send alice 2 2 gone x as y"), ["read fault"])
        want(client.ask("send alice 2 2 folder x urgent"), ["read fault"])
        want(client.ask("send alice 2 2 a x urgent"), ["refused 10 TooLarge"])
        want(client.ask("send alice 2 9 b x urgent"), ["refused 25 UnknownRemote"])
        want(client.ask("send alice 2 2 b x closure urgent as y"), ["queued 1"])
        want(client.ask("send alice 2 2 gone x"), ["queued 2"])
        for words in ("as y urgent", "urgent closure", "urgent urgent", "as", "as y z"):
            want((words, client.ask(f"send alice 2 2 b x {words}")[0]), (words, "bad command"))


@case
def levels():
    """A client that follows a level gets no pieces of files, each event says its level, and others get lines as ever."""
    with stations() as (one, other, _):
        client = one.client()
        write("a", 600_000)
        plain, info, warning = other.client(), other.client(), other.client()
        want((plain.ask("follow"), info.ask("follow info"), warning.ask("follow warning")), (["ok"], ["ok"], ["ok"]))
        want(client.ask("send alice 2 2 a a"), ["queued 1"])
        ends = [one.wait_event(lambda event: event.get("name") == "Transaction-Finished", "the end") for one in (plain, info)]
        want([end.get("level") for end in ends], [None, "info"])
        until(lambda: other.client().ask("send alice 2 1 gone x") is not None, "an answer")
        want(warning.wait_event(lambda event: event["kind"] == "unsent", "what is not sent")["level"], "warning")
        want({event["level"] for event in warning.events}, {"warning"})
        want({event["level"] for event in info.events} <= {"info", "warning"}, True)
        plain.status()
        want(any(event.get("name") == "File-Segment-Recv" for event in plain.events), True)
        # pieces as well, each with its level
        detail = other.client()
        want(detail.ask("follow 1024 detail"), ["ok"])
        detail.status()
        want({event["level"] for event in detail.events if event.get("name") == "File-Segment-Recv"}, {"detail"})
        want([event for event in plain.events if "level" in event], [])
        late, early = other.client(), other.client()
        want((late.ask("follow 1024"), early.ask("follow 1024 info")), (["ok"], ["ok"]))
        late.status()
        early.status()
        want(any(event["kind"] == "start" for event in late.events), False)
        want((early.events[0]["kind"], early.events[0]["level"], list(early.events[0])[-1]), ("start", "info", "level"))
        want(late.ask("follow 1 debug"), ["bad command", 'follow: "debug" is not a level: detail, info or warning'])


@case
def a_log_of_a_level():
    """With a level the log has the events of this level and above, each with its level."""
    with stations(second=("log.file = 'log'", "log.level = 'info'")) as (one, other, _):
        client, peer = one.client(), other.client()
        write("a", 5_000)
        want(client.ask("send alice 2 2 a a"), ["queued 1"])
        until(lambda: [line["state"] for line in peer.status() if line["kind"] == "transaction"] == ["ended"], "the end of the file")
        want(peer.ask("quit"), ["ok"])
        other.run.wait(60)
        events = [json.loads(line) for line in pathlib.Path("log").read_text().splitlines()]
        # a busy machine may send something twice, which is refused
        want({"info"} <= {event["level"] for event in events} <= {"info", "warning"}, True)
        want((events[0]["kind"], events[-1]["kind"]), ("start", "end"))
        want([event for event in events if event.get("name") == "File-Segment-Recv"], [])


@case
def a_log_that_turns_over():
    """A log that is moved away under load is opened anew by itself or by `reopen`, and no event is missing in the files together."""
    with station(SERVER, options=("log.file = 'log'", "log.commands = false")) as (one, _):
        client = one.client()
        turned = 0
        for number in range(60):
            want(client.ask("hold 2" if number % 2 == 0 else "release 2"), ["ok"])
            if number % 20 == 10:
                os.rename("log", f"log.{turned}")
                turned += 1
                if turned == 2:
                    want(client.ask("reopen"), ["ok"])
                    want(os.path.exists("log"), True)
                else:
                    until(lambda: os.path.exists("log"), "the new file")
        want(client.ask("quit"), ["ok"])
        one.run.wait(60)
        numbers = [json.loads(line)["number"] for name in ("log.0", "log.1", "log.2", "log")
                   for line in pathlib.Path(name).read_text().splitlines()]
        want(numbers, list(range(1, 63)))
    with station(SERVER) as (one, _):
        want(one.client().ask("reopen"), ["refused NoLog"])


@case
def a_socket_of_a_group():
    """The socket's file has the permissions that were asked for, and its owner's alone without a word."""
    for options, mode in ((), 0o600), (("control.mode = '0660'",), 0o660), (("control.mode = '0666'",), 0o666):
        with station(SERVER, options=options) as (one, _):
            one.client().close()
            want(stat.S_IMODE(os.stat(one.path).st_mode), mode)
    for word in ("660", "0644", "0777", ""):
        with station(SERVER, options=(f"control.mode = '{word}'",)) as (one, _):
            want((word, one.run.wait(60), one.run.stderr.readline()), (word, 1, b"cfdp_server: config fault 4\n"))


def hold_as(path, user, group):
    """What a process of this user and group gets by `hold 2` at a socket: 0 for `ok`, 3 if it may not connect."""
    child = os.fork()
    if child == 0:
        status = 1
        try:
            os.setgroups([])
            os.setgid(group)
            os.setuid(user)
            with socket.socket(socket.AF_UNIX) as one:
                one.settimeout(20)
                one.connect(path)
                one.sendall(b"hold 2\n")
                status = 0 if one.recv(100).startswith(b"ok\n") else 2
        except PermissionError:
            status = 3
        finally:
            os._exit(status)
    return os.waitstatus_to_exitcode(os.waitpid(child, 0)[1])


def becomes_others():
    """Whether this process may give files to a group and become another user."""
    child = os.fork()
    if child == 0:
        status = 1
        try:
            os.chown(".", -1, 4242)
            os.setgroups([])
            os.setgid(4003)
            os.setuid(4003)
            status = 0
        finally:
            os._exit(status)
    return os.waitstatus_to_exitcode(os.waitpid(child, 0)[1]) == 0


@case
def two_users_of_a_group_and_a_third():
    """In a folder whose files are a group's, its users command by a socket with the mode 0660, and others can't open it."""
    if not becomes_others():
        raise Skipped("this process can't become other users")
    os.chown(".", -1, 4242)
    os.chmod(".", 0o2755)
    asked = [(4001, 4242), (4002, 4242), (4003, 4003)]
    with station(SERVER, options=("control.mode = '0660'",)) as (one, _):
        one.client().close()
        want([hold_as(one.path, user, group) for user, group in asked], [0, 0, 3])
    with station(SERVER) as (one, _):
        one.client().close()
        want([hold_as(one.path, user, group) for user, group in asked], [3, 3, 3])


run_cases("tuning")
