#!/usr/bin/env python3
"""The console over a running server with traffic: what it shows is what the station says, and its commands reach it.

usage: tests/console.py CFDP_WEB SERVER

Two servers and the console on loopback, in a folder of their own; it ends within a minute.
"""
import http.client
import json
import os
import pathlib
import subprocess
import sys
import tempfile
import time

from support import Station, Wrong, free_port, until, want

WEB, SERVER = (os.path.abspath(word) for word in sys.argv[1:3])
TOKEN = "a-token-of-the-test"


class Console:
    """A running console, and requests to it."""

    def __init__(self, control, *more):
        pathlib.Path("token").write_text(TOKEN + "\n")
        self.port = free_port()
        words = [WEB, "--control", control, "--listen", f"127.0.0.1:{self.port}", "--commands", "--token-file", "token", *more]
        self.run = subprocess.Popen(words, stdout=subprocess.PIPE, stderr=subprocess.PIPE)
        until(lambda: self.ask("GET", "/healthz")[0] == 200, "the console")

    def ask(self, method, target, body=None, **headers):
        connection = http.client.HTTPConnection("127.0.0.1", self.port, timeout=15)
        try:
            connection.request(method, target, body, headers)
            answer = connection.getresponse()
            return answer.status, answer.read()
        except OSError:
            return None, b""
        finally:
            connection.close()

    def document(self):
        answers = []

        def is_there():
            # a station on a busy machine may not answer the console in time
            answers.append(self.ask("GET", "/status.json"))
            return answers[-1][0] == 200

        until(is_there, "a document")
        return json.loads(answers[-1][1])

    def command(self, line):
        """What the station answers to a command."""
        status, body = self.ask("POST", "/command", line, **{"X-Console-Token": TOKEN})
        want((line, status), (line, 200))
        return body.decode().splitlines()

    def events(self):
        """The events that the console has kept."""
        status, body = self.ask("GET", "/events")
        want(status, 200)
        return [json.loads(line[6:]) for line in body.decode().splitlines() if line.startswith("data: ")]

    def close(self):
        self.run.kill()
        self.run.wait()
        self.run.stdout.close()
        self.run.stderr.close()


KINDS = {"entities": "entity", "logs": "log", "users": "user", "transactions": "transaction", "remotes": "remote",
         "refusals": "refusal", "outbox": "queued", "reading": "reading", "parked": "parked", "storing": "storing",
         "recorders": "recorder"}


def check_status(console, client):
    """The document has the lines of the status, once nothing moves."""
    names = [name for name in KINDS if name not in ("entities", "reading")]

    def is_alike():
        lines = client.status()
        document = console.document()
        for line in (*document["remotes"], *lines):
            line.pop("silence", None)
        return {name: document[name] for name in names} == {name: [line for line in lines if line["kind"] == KINDS[name]] for name in names} and \
            set(document["entities"][0]) == set(lines[0])

    until(is_alike, "a document with the lines of the status")


# What the page reads of each kind of line, besides what it shows as it is.
READ = {"entities": {"id", "started", "now", "counters", "version"}, "logs": {"failing", "lost"}, "users": {"name", "waiting", "capacity"},
        "transactions": {"source", "seq", "user", "role", "peer", "class", "state", "file", "to", "size", "octets", "events", "last"},
        "remotes": {"id", "address", "held", "datagrams_in", "octets_in", "datagrams_out", "octets_out", "failed_sends"}}
COUNTERS = {"datagrams_in", "octets_in", "datagrams_out", "octets_out", "refused", "stored", "failed_stores"}


def check_members(console):
    """A running station's lines have the members that the page reads."""
    document = console.document()
    missing = [(name, member) for name, members in READ.items() for line in document[name] for member in members - set(line)]
    want((missing, COUNTERS - set(document["entities"][0]["counters"])), ([], set()))


def seen(console, seq):
    """The line of a transaction."""
    return next((line for line in console.document()["transactions"] if line["seq"] == seq), {})


def give_up(console, two, file):
    """Several files go to a peer that has gone: one is suspended, goes on, and is abandoned; another one is cancelled. What the page
    takes as signs of life moves while nothing is indicated."""
    two.close()
    for name in ("c", "d"):
        want(console.command(f"send alice 2 2 {file} {name}")[0].split()[0], "queued")
    until(lambda: {"c", "d"} <= {line.get("to") for line in console.document()["transactions"] if line["state"] == "active"}, "two transactions")
    first, other = (next(line for line in console.document()["transactions"] if line.get("to") == name) for name in ("c", "d"))
    until(lambda: seen(console, first["seq"])["events"] > first["events"], "timers that count")
    names = [f"alice {line['source']} {line['seq']}" for line in (first, other)]
    want(console.command(f"suspend {names[0]}"), ["ok"])
    until(lambda: seen(console, first["seq"])["state"] == "suspended", "a transaction at rest")
    want(console.command(f"resume {names[0]}"), ["ok"])
    until(lambda: seen(console, first["seq"])["state"] == "active", "a transaction that goes on")
    want((console.command(f"abandon {names[0]}"), console.command(f"cancel {names[1]}")), (["ok"], ["ok"]))
    until(lambda: "condition" in seen(console, first["seq"]) and "delivery" not in seen(console, first["seq"]), "an abandoned transaction")
    until(lambda: "Abandoned" in {event.get("name") for event in console.events() if event.get("seq") == first["seq"]}, "its event")


def work(console, one, two):
    client = one.client()
    pathlib.Path("file").write_bytes(bytes(range(256)) * 40)
    file = os.path.abspath("file")
    want((console.command("hold all"), console.command("rate 2 5000000")), (["ok"], ["ok"]))
    want(console.command(f"send alice 2 2 {file} a"), ["queued 1"])
    want(console.command(f"send alice 2 2 {file} b"), ["queued 2"])
    until(lambda: [line["to"] for line in console.document()["outbox"]] == ["a", "b"], "the outbox")
    check_status(console, client)
    want(console.document()["remotes"][0]["held"], True)
    want(console.command("drop 2"), ["ok"])
    want(console.command("release 2 600"), ["ok"])
    until(lambda: "open_until" in console.document()["remotes"][0], "the end of the window")
    until(lambda: any(line.get("status") == "retained" for line in console.document()["transactions"]), "the end of a file")
    want((two.received() / "a").read_bytes(), pathlib.Path("file").read_bytes())
    check_status(console, client)
    [ended] = [line for line in console.document()["transactions"] if line.get("status") == "retained"]
    until(lambda: {"put", "hold", "release", "unsent"} <= {event["kind"] for event in console.events()}, "the events")
    finished = lambda: [event for event in console.events() if event.get("name") == "Transaction-Finished"]
    until(finished, "the event of the end")
    want([(event["seq"], event["delivery"]) for event in finished()], [(ended["seq"], "complete")])
    script = console.command(f"journal 1 {ended['seq']}")
    want((script[0].startswith("# "), any(line.startswith("put ") for line in script)), (True, True))
    want(console.ask("POST", "/command", "nonsense", **{"X-Console-Token": TOKEN})[0], 400)
    want(console.ask("POST", "/command", "hold 2", **{"X-Console-Token": "another"})[0], 403)
    metrics = console.ask("GET", "/metrics")[1].decode()
    want([line for line in ("cfdp_up 1", 'cfdp_remote_held{remote="2"} 0', 'cfdp_transactions{state="ended"} 1') if line not in metrics], [])
    check_members(console)
    check_watching(client)
    check_plan(one)
    pathlib.Path("big").mkdir()
    pathlib.Path("big/file").write_bytes(bytes(600_000))
    want(console.command(f"send alice 2 2 {os.path.abspath('big/file')} big as file")[0].split()[0], "queued")
    check_history(two)
    give_up(console, two, file)
    want((client.ask("quit"), one.run.wait(60)), (["ok"], 0))
    until(lambda: console.ask("GET", "/healthz")[0] == 503, "the console to miss the station")


def check_watching(client):
    """A console at the status socket shows the same, and commands nothing."""
    console = Console("watched")
    try:
        want([entity["id"] for entity in console.document()["entities"]], [1])
        until(lambda: any(event["kind"] == "put" for event in console.events()), "the events")
        want(console.command("hold 2"), ["refused NotHere"])
        want([line["held"] for line in client.status() if line["kind"] == "remote"], [False])
        want("cfdp_up 1" in console.ask("GET", "/metrics")[1].decode(), True)
    finally:
        console.close()


def check_plan(one):
    """A console with a plan has its windows, or its faults, and reads it again once it has changed."""
    plan = pathlib.Path("plan")
    plan.write_text("# a contact plan\n2026-12-01T10:00:00Z 2026-12-01T10:08:00Z 2 8000\n2026-12-01T12:00:00Z 2026-12-01T12:08:00Z 18446744073709551615 off\n")
    console = Console(one.path, "--windows", "plan")
    try:
        given = lambda: json.loads(console.ask("GET", "/windows.json")[1])
        begin = 1_796_119_200_000
        want(given(), {"windows": [{"remote": "2", "from": begin, "until": begin + 480_000, "rate": 8000},
                                   {"remote": "18446744073709551615", "from": begin + 7_200_000, "until": begin + 7_680_000, "rate": "off"}], "faults": []})
        plan.write_text('2026-12-01T10:00:00Z 2026-12-01T10:08:00Z 2\n"\\ 2026-12-01T10:08:00Z 2\n\n2026-12-01T10:07:59Z 2026-12-01T10:09:00Z 2\n')
        want(given(), {"windows": [], "faults": ["line 2: '\"\\' is not a moment in UTC, such as 2026-12-01T10:00:00Z",
                                                 "line 4: '2026-12-01T10:07:59Z' begins before the window of line 1 has ended"]})
        plan.write_text("2026-12-01T10:00:00Z 2026-12-01T10:08:00Z 2\n")
        want(given()["windows"], [{"remote": "2", "from": begin, "until": begin + 480_000}])
        plan.unlink()
        want(given(), {"windows": [], "faults": ["plan: no such file"]})
    finally:
        console.close()
    console = Console(one.path)
    try:
        want(json.loads(console.ask("GET", "/windows.json")[1]), {"windows": [], "faults": []})
    finally:
        console.close()


def check_history(two):
    """A console that is opened after a file with more pieces than it keeps has the file's begin and end, and the name alone."""
    client = two.client()
    until(lambda: any(line.get("status") == "retained" and line.get("to") == "big" for line in client.status()), "a large file")
    client.close()
    console = Console(two.path)
    try:
        named = lambda name: [event for event in console.events() if event.get("name") == name]
        until(lambda: [event["file"] for event in named("Metadata-Recv") if event["to"] == "big"] == ["file"], "the begin of a large file")
        until(lambda: len(named("File-Segment-Recv")) > 1000, "the last pieces")
        want([event["delivery"] for event in named("Transaction-Finished")][-1:], ["complete"])
    finally:
        console.close()


def main():
    ports = [free_port(), free_port()]
    with tempfile.TemporaryDirectory() as home:
        os.chdir(home)
        # files to a peer that has gone stay under way for a minute
        one = Station(SERVER, 1, ports[0], 2, ports[1], ("log.file = 'log'", "control.status_socket = 'watched'"), limit=200)
        two = Station(SERVER, 2, ports[1], 1, ports[0])
        console = None
        try:
            one.client().close()
            two.client().close()
            console = Console(one.path)
            work(console, one, two)
        finally:
            if console:
                console.close()
            one.close()
            two.close()
            os.chdir("/")
    print("the console shows a running station, and commands it")


try:
    main()
except Wrong as why:
    sys.exit(f"console: {why}")
