#!/usr/bin/env python3
"""cfdp_ctl with a fake station: its exit statuses, its output, and what it does when the station goes away.

usage: tests/ctl.py PROGRAM [SERVER [folders|full]]

With a server, two of them exchange files as well, under the program's commands. With the word `folders` only what is about watched
folders is tried, with `full` only a full outbox of a server, and without them all else; without a server watched folders too.
"""
import atexit
import contextlib
import json
import os
import pty
import select
import shutil
import signal
import subprocess
import sys
import tempfile
import time

from support import Relay, Station, fill_backlog, free_port

PROGRAM = os.path.abspath(sys.argv[1])
STATION = os.path.join(os.path.dirname(os.path.abspath(__file__)), "fake_station.py")
PATIENCE = 240
FOLDER = tempfile.mkdtemp(prefix="ctl-")
atexit.register(shutil.rmtree, FOLDER, ignore_errors=True)
SOCKET = os.path.join(FOLDER, "control")
FILE = os.path.join(FOLDER, "a.bin")
LOST = os.path.join(FOLDER, "lost.bin")
ODD = ["a b.bin", 'q"u\\o.bin', "n\nl.bin", "é#.bin"]
PLAIN = {name: value for name, value in os.environ.items() if name not in ("CFDP_CONTROL", "COLUMNS", "NO_COLOR")}


def want(title, holds, seen):
    if not holds:
        print(f"cfdp_ctl, {title}: {seen}")
        sys.exit(1)


@contextlib.contextmanager
def station(*options):
    """A station that listens at SOCKET."""
    with contextlib.suppress(FileNotFoundError):
        os.unlink(SOCKET)
    run = subprocess.Popen([sys.executable, STATION, SOCKET, *options])
    try:
        end = time.monotonic() + PATIENCE
        while not os.path.exists(SOCKET) and time.monotonic() < end:
            time.sleep(0.02)
        yield run
    finally:
        run.kill()
        run.wait()


def ctl(*words, given=b"", environment=None, control=True):
    """A run of the program."""
    line = [PROGRAM, *(["--control", SOCKET] if control else []), *words]
    begun = time.monotonic()
    run = subprocess.run(line, input=given, capture_output=True, timeout=PATIENCE, env={**PLAIN, **(environment or {})},
                         cwd=FOLDER)
    run.took = time.monotonic() - begun
    return run


def wait_for(title, holds):
    """Waits until something holds, which is asked again and again."""
    end = time.monotonic() + PATIENCE
    while not holds():
        want(title, time.monotonic() < end, "it didn't come")
        time.sleep(0.05)


def lines_like(kind):
    """The lines of this kind in a status of the station."""
    return [line for line in map(json.loads, ctl("status", "--json").stdout.splitlines()) if line["kind"] == kind]


def has_clients(count):
    """Waits until so many clients follow; the simulated station counts a client once it has answered it."""
    wait_for(f"{count} clients", lambda: lines_like("entity")[0]["clients"] > count)


def has_ended(*numbers):
    """Waits until these transactions have ended, and their events are told."""
    wait_for(f"the end of {numbers}", lambda: set(numbers) <= {line["seq"] for line in lines_like("transaction") if line["state"] == "ended"})
    time.sleep(0.3)


def check(title, run, status, out=None, errors=None):
    want(f"{title}, its status", run.returncode == status, (run.returncode, run.stdout, run.stderr))
    if out is not None:
        want(f"{title}, its output", out in run.stdout, run.stdout)
    if errors is not None:
        want(f"{title}, its errors", errors in run.stderr, run.stderr)


def words_of_the_line():
    check("help", ctl("--help", control=False), 0, b"Usage: cfdp_ctl")
    check("version", ctl("--version", control=False), 0, b"cfdp_ctl 0.1\n")
    for title, line, errors in [
            ("an unknown option", ["--controls", "x"], b"--controls"),
            ("an option of another command", ["follow", "--watch"], b"--watch doesn't go with follow"),
            ("a word too many", ["status", "now"], b"'now'"),
            ("a word with a space", ["put", "ops", "0", "2", "5", "a b", "c"], b"a space"),
            ("an empty word", ["take", ""], b"empty"),
            ("a width that is too small", ["--width", "39", "status"], b"'39'"),
            ("a colour that isn't there", ["--colour", "red", "status"], b"'red'"),
            ("no transaction", ["follow", "--transaction", "1-2"], b"'1-2'"),
            ("a send without a remote", ["send", FILE], b"--to REMOTE"),
            ("a send without files", ["send", "--to", "5"], b"files"),
            ("a class that isn't there", ["send", "--to", "5", "--class", "3", FILE], b"'3'"),
            ("a remote that is no number", ["send", "--to", "x", FILE], b"'x'"),
            ("an option of send", ["status", "--wait"], b"--wait doesn't go with status"),
            ("an option of send, for the outbox", ["outbox", "--into", "x"], b"--into doesn't go with outbox"),
            ("a history without a log", ["history"], b"--log FILE"),
            ("an option of history", ["follow", "--since", "2026"], b"--since doesn't go with follow"),
            ("all, and not all", ["cancel", "--all", "--remote", "7"], b"--all doesn't go with"),
            ("a watch without a remote", ["watch", FOLDER], b"--to REMOTE"),
            ("a watch of two folders", ["watch", "--to", "5", FOLDER, FOLDER], b"one folder"),
            ("an option of watch", ["send", "--to", "5", "--once", FILE], b"--once doesn't go with send"),
            ("a word too many for a check", ["check", "now"], b"'now'"),
            ("an option of status, for a check", ["check", "--json"], b"--json doesn't go with check"),
            ("a retry that nobody waits for", ["send", "--to", "5", "--retry", "1", FILE], b"--retry needs --wait"),
            ("too many retries", ["send", "--to", "5", "--wait", "--retry", "1001", FILE], b"'1001' is not a number from 0 to 1000"),
            ("a folder for a watch", ["watch", FOLDER, "--to", "5", "-r"], b"--recursive doesn't go with watch"),
            ("files deleted without a report", ["watch", FOLDER, "--to", "5", "--class", "1", "--delete"], b"--delete needs class 2"),
            ("too many events", ["follow", "--last", "1025"], b"'1025' is not a number from 0 to 1024"),
            ("a level that isn't there", ["follow", "--level", "debug"], b"'debug' must be detail, info or warning"),
            ("an option of send", ["watch", FOLDER, "--to", "5", "--urgent"], b"--urgent doesn't go with watch"),
            ("a moment that is none", ["history", "--log", FILE, "--since", "26-11-2026"], b"'26-11-2026' is not a moment"),
            ("a month that is none", ["history", "--log", FILE, "--since", "2026-13-01"], b"'2026-13-01' is not a moment"),
            ("a day that is none", ["history", "--log", FILE, "--since", "2100-02-29"], b"'2100-02-29' is not a moment"),
            ("an hour that is none", ["history", "--log", FILE, "--since", "2028-02-29T24"], b"'2028-02-29T24' is not a moment"),
            ("a word that a terminal would obey", ["status", "\x1b[2J"], b"'\\x1b[2J'"),
    ]:
        check(title, ctl(*line), 2, b"", errors)
    check("no control socket", ctl("status", control=False), 2, b"", b"CFDP_CONTROL")


def answers():
    with station():
        for line, status, out in [
                (["suspend", "ops", "1", "2"], 0, b"ok\n"), (["cancel", "ops", "1", "2"], 3, b"refused 1 NoTransaction\n"),
                (["take", "ops"], 3, b"refused TakenByEvents\n"), (["nonsense"], 3, b"bad command\n"),
                (["put", "ops", "0", "2", "5", "missing", "b"], 3, b"read fault\n"),
                (["put", "ops", "0", "2", "5", "unnumbered", "b"], 3, b"numbers fault\n"), (["drop", "507"], 3, b"outbox fault\n"),
                (["put", "ops", "0", "2", "5", FILE, "b"], 0, b"ok\ntxn 1 100\n")]:
            run = ctl(*line)
            check(" ".join(line), run, status)
            want(" ".join(line), run.stdout == out, run.stdout)
        check("the environment's socket", ctl("suspend", control=False, environment={"CFDP_CONTROL": SOCKET}), 0, b"ok\n")
        run = ctl(given=b"suspend ops 1 2\nnonsense\nsuspend ops 1 3")
        check("commands of the standard input", run, 3)
        want("commands of the standard input", run.stdout == b"ok\nbad command\nok\n", run.stdout)
        check("good commands of the standard input", ctl(given=b"suspend ops 1 2\nsuspend ops 1 3\n"), 0, b"ok\nok\n")
        run = ctl(given=b"follow 1\nsuspend ops 1 2\n")
        check("events between answers", run, 0)
        want("events between answers", run.stdout.startswith(b"ok\n") and run.stdout.count(b"\nevent {") == 1, run.stdout)
        run = ctl(given=b"x" * 131_073 + b"quit\nsuspend ops 1 2\n" + b"x" * 131_072 + b"\n" + b"x" * 400_000)
        check("commands that are too long", run, 3)
        want("commands that are too long", run.stdout == b"bad command\nok\nbad command\nbad command\n", run.stdout)
        check("quit", ctl("quit"), 0, b"ok\n")
        run = ctl("status")
        end = time.monotonic() + 10
        while b"no server" not in run.stderr and time.monotonic() < end:
            # the station is still ending
            time.sleep(0.05)
            run = ctl("status")
        check("nobody there", run, 1, b"", b"no server")


def no_answers():
    run = ctl("status")
    check("no server", run, 1, b"", b"no server")
    want("no server, its path", run.stderr == f"cfdp_ctl: {SOCKET}: no server answers at the control socket\n".encode(), run.stderr)
    want("no server, how long it took", run.took < 20, run.took)
    if os.getuid() != 0:
        with station():
            os.chmod(SOCKET, 0)
            check("a socket of somebody else", ctl("status"), 1, b"",
                  f"cfdp_ctl: {SOCKET}: permission denied; its owner or group may open it\n".encode())
    with station("--half"):
        run = ctl("status")
        check("half an answer", run, 1, b"")
        want("half an answer, how long it took", 3 < run.took < 30, run.took)
    with station() as stopped:
        stopped.send_signal(signal.SIGSTOP)
        for title, waiting in (("a server that stands still", []), ("a server that lets nobody in", fill_backlog(SOCKET))):
            for words in (["status"], ["send", "--to", "5", FILE], ["--wait-for-server", "1", "status"]):
                run = ctl(*words)
                check(f"{title}, {words}", run, 1, b"", b"no server answers" if waiting else b"")
                # five seconds, and what a busy machine adds
                want(f"{title}, {words}, how long it took", run.took < 20, run.took)
            for client in waiting:
                client.close()
    with station("--busy"):
        check("no seat", ctl("status"), 1, b"", b"seat")
    with station("--old"):
        for name in ("status", "follow"):
            check(f"a server without {name}", ctl(name), 3, b"bad command\n")
        run = ctl("send", "--to", "5", "--user", "ops", "--wait", FILE)
        check("a server without follow, and a wait", run, 3, b"bad command\n")
        want("a server without follow, and a wait", b"queued" not in run.stdout, run.stdout)
    os.unlink(SOCKET)
    waiting = subprocess.Popen([PROGRAM, "--control", SOCKET, "--wait-for-server", "30", "suspend", "ops", "1", "2"],
                               stdout=subprocess.PIPE, env=PLAIN)
    time.sleep(0.5)
    with station():
        out, _ = waiting.communicate(timeout=PATIENCE)
        want("a server that comes later", (waiting.returncode, out) == (0, b"ok\n"), (waiting.returncode, out))


def tables():
    with station("--transactions", "40", "--odd", "--users", "ops,sim"):
        check("a put that ends", ctl("put", "ops", "0", "2", "5", FILE, "b"), 0)
        has_ended(100)
        run = ctl("status", "--width", "100")
        check("status", run, 0, b"Active")
        text = run.stdout
        want("status, its octets", not any(octet < 32 and octet != 10 or octet == 127 for octet in text), text)
        want("status, its width", max(len(line.decode()) for line in text.split(b"\n")) <= 100, text)
        widths = []
        for words, columns in (((), None), ((), "108"), (("--width", "116"), "108"), ((), "wide")):
            run = ctl("status", *words, environment={"COLUMNS": columns} if columns else None)
            widths.append(max(len(line.decode()) for line in run.stdout.split(b"\n")))
        want("status, the width that the environment gives", 90 < widths[0] <= 100 < widths[1] <= 108 < widths[2] <= 116
             and widths[3] == widths[0], widths)
        for word in (b"Users", b"Ended", b"Remotes", b"Refusals", b"DecodeFault", b"7.3", b"\\x1b"):
            want(f"status, {word}", word in text, text)
        want("status, what a refusal means", b"it has a CRC" in ctl("status", "--width", "300").stdout, text)
        want("status, no colour", b"\x1b" not in text, text)
        check("status in colour", ctl("status", "--colour", "always"), 0, b"\x1b[1m")
        run = ctl("status", "--json")
        check("status as it comes", run, 0, b'{"kind": "user", "name": "sim"')
        want("status as it comes, its lines", run.stdout.count(b"\n") == 48, run.stdout)
        check("a limit", ctl("rate", "5", "9000"), 0)
        check("status, a limit", ctl("status", "--width", "160"), 0, b"192.0.2.5:4556, at most 9000 octets a second")


def said(status=(), events=()):
    """The options of a fake station whose status and events these are."""
    path = os.path.join(FOLDER, "said")
    with open(path, "w") as file:
        json.dump({"status": list(status), "events": list(events)}, file)
    return ["--say", path]


def layout():
    entity = {"kind": "entity", "id": 1, "version": "0.1", "started": "2026-11-26T12:00:00.000Z",
              "now": "2028-03-01T00:00:00.000Z"}
    under_way = {"kind": "transaction", "source": 1, "seq": 41, "user": "ops", "lane": 3, "role": "receiver", "peer": 7,
                 "state": "active", "to_hex": "625cff", "size": 100, "octets": 45, "last": "2028-02-28T00:00:00.000Z"}
    rows = [(45, 100, "2028-02-28T00:00:00.000Z", "[####......] 45% 45 B - 2 d ? to b\\x5c\\xff"),
            (1536, 1536, "2028-02-29T23:59:59.250Z", "[##########] 100% 1.5 KiB - 0.7 s ? to b\\x5c\\xff"),
            (1946, 1946, "2028-02-29T23:59:59.250Z", "[##########] 100% 1.9 KiB - 0.7 s ? to b\\x5c\\xff"),
            (0, 0, "2028-02-29T23:58:59.000Z", "[##########] 100% 0 B - 61 s ? to b\\x5c\\xff"),
            (3145728, 2**63, "2028-02-29T22:00:01.000Z", "[..........] 0% 3.0 MiB - 119 min ? to b\\x5c\\xff"),
            (5368709120, 2**63, "2028-02-29T21:00:00.000Z", "[..........] 0% 5.0 GiB - 3 h ? to b\\x5c\\xff"),
            (1023, 1024, "no moment", "[#########.] 99% 1023 B - - ? to b\\x5c\\xff")]
    for octets, size, last, wanted in rows:
        with station(*said([entity, {**under_way, "octets": octets, "size": size, "last": last}])):
            run = ctl("status", "--width", "200")
            check(f"{octets} octets", run, 0)
            want(f"{octets} octets", " ".join(run.stdout.decode().split("\n")[4].split()).endswith(" active " + wanted), run.stdout)
            want(f"{octets} octets, its heads", run.stdout.startswith(
                b"Entity 1, cfdp_server 0.1, since 2026-11-26T12:00:00.000Z, now 2028-03-01T00:00:00.000Z\n\nActive\n"), run.stdout)
    with station(*said([{**under_way, "state": "ended"}, {**under_way, "seq": 42, "state": "ended", "condition": 8}])):
        run = ctl("status", "--width", "200")
        want("a transaction that is still ending", [line.split()[4:-3] for line in run.stdout.decode().split("\n")[2:4]]
             == [["100", "B", "ending"], ["100", "B", "abandoned,", "inactivity", "detected"]], run.stdout)
        want("a transaction that is still ending hasn't failed", b"1.41" not in ctl("status", "--failed").stdout
             and b"1.42" in ctl("status", "--failed").stdout, ctl("status", "--failed").stdout)
    with station(*said([{"kind": "user", "name": "ops\x1b", "waiting": 3, "capacity": 1024}])):
        run = ctl("status")
        want("a table", run.stdout == b"Users\nwaiting    of  user\n      3  1024  ops\\x1b\n\n", run.stdout)
        run = ctl("status", "--colour", "always")
        want("a table in colour", run.stdout.startswith(b"\x1b[1mUsers\n\x1b[0m\x1b[2mwaiting\x1b[0m  "), run.stdout)
    since = "2025-11-27T12:00:00.250Z"
    with station(*said([{"kind": "reading", "file": "/tmp/a\x1b.bin", "since": since},
                        {"kind": "reading", "file_hex": "62ff", "since": since}, {"kind": "reading"}])):
        run = ctl("status", "--width", "200")
        want("files that are read", run.stdout == b"Reading\nsince                     file\n2025-11-27T12:00:00.250Z  /tmp/a\\x1b.bin\n"
             b"2025-11-27T12:00:00.250Z  b\\xff\n?                         ?\n\n", run.stdout)
    parked = {"kind": "parked", "user": "ops\x1b", "lane": 3, "datagrams": 12, "transactions": 2, "octets": 17000,
              "dropped": 0, "since": since}
    with station(*said([parked, {"kind": "parked", "user": "o", "lane": 10, "dropped": 5}])):
        run = ctl("status", "--width", "200")
        want("lanes for which datagrams wait", run.stdout ==
             b"Parked\nuser     lane  datagrams  transactions    octets  dropped  since\n"
             b"ops\\x1b     3         12             2  16.6 KiB        0  2025-11-27T12:00:00.250Z\n"
             b"o          10          -             -         -        5  -\n\n", run.stdout)
    note = {"kind": "note", "remote": 7, "sending_lanes": 6, "receiving_lanes": 8}
    for better, wanted in (([1, 2, 4, 8], b"; 1, 2, 4 or 8 would not."), ([1, 2], b"; 1 or 2 would not."),
                           ([1], b"; 1 would not."), ([], b"."), ("\x1b", b"."), ([None], b"; ? would not.")):
        with station(*said([{"kind": "log", "failing": True, "lost": 7}, {**note, "better": better}])):
            run = ctl("status")
            want(f"a note, {better}", run.stdout == b"The log can't be written; events lost: 7\nNote: 6 sending lanes don't "
                 b"divide the 8 receiving lanes of entity 7, so files wait for each other" + wanted + b"\n\n", run.stdout)
    with station("--parked", "2", "--note"):
        run = ctl("status")
        check("datagrams that wait, and notes", run, 0, b"lanes of entity 5, so files wait for each other; 1, 2, 4, 8 or 16 would not.\n\n")
        want("datagrams that wait", run.stdout.count(b" 12             2  16.6 KiB        0  20") == 2, run.stdout)
    with station():
        run = ctl("status")
        want("neither datagrams that wait nor notes", b"Parked" not in run.stdout and b"Note" not in run.stdout, run.stdout)
    with station("--reading", "/tmp/a.bin"):
        check("a file that is read", ctl("status"), 0, b"Z  /tmp/a.bin\n")
    with station(*said([{"kind": "log", "failing": True, "lost": 7}])):
        check("a log that fails", ctl("status"), 0, b"The log can't be written; events lost: 7\n")


def followed(events, *words):
    """What is printed of these events to somebody who follows them."""
    with station(*said(events=events)):
        run = subprocess.Popen([PROGRAM, "--control", SOCKET, *words, "follow", "--level", "detail"], stdout=subprocess.PIPE,
                               stderr=subprocess.DEVNULL, env=PLAIN)
        told, end = b"", time.monotonic() + PATIENCE
        while told.count(b"\n") < len(events) and time.monotonic() < end:
            if select.select([run.stdout], [], [], 1)[0]:
                told += os.read(run.stdout.fileno(), 65_536) or b"\n" * len(events)
        ctl("quit")
        out, _ = run.communicate(timeout=PATIENCE)
        return told + out


def tones_of_events():
    """What an operator has to look at is red: a suspension that nobody asked for, but not a file without a report."""
    about = {"at": "2026-11-26T12:00:00.000Z", "kind": "indication", "user": "ops", "source": 1, "seq": 41}
    end = {**about, "name": "Transaction-Finished", "delivery": "complete"}
    rows = [({**about, "name": "Suspended", "condition": 14}, False), ({**about, "name": "Suspended", "condition": 10}, True),
            ({**end, "condition": 0, "status": "unreported"}, False), ({**end, "condition": 4, "status": "discarded"}, True),
            ({**about, "kind": "journal-full"}, True), ({**about, "kind": "put"}, False)]
    lines = followed([event for event, _ in rows], "--colour", "always").split(b"\n")
    want("events in red", [b"\x1b[31m" in line for line in lines[:len(rows)]] == [is_red for _, is_red in rows], lines)


def words_of_events():
    at = {"at": "2026-11-26T12:00:00.000Z"}
    about = {**at, "kind": "indication", "user": "ops", "source": 1, "seq": 41}
    rows = [
        ({**about, "name": "Metadata-Recv", "size": 3145728, "file": "a\x1b[2J.bin\u202e\n\u061c\U000e0041", "to_hex": "62ff"},
         "ops 1.41 metadata received: a\\x1b[2J.bin\\u00202e\\x0a\\u00061c\\u0e0041 to b\\xff, 3.0 MiB"),
        ({**about, "name": "Transaction"}, "ops 1.41 begun"),
        ({**about, "name": "EOF-Recv"}, "ops 1.41 EOF received"),
        ({**about, "name": "File-Segment-Recv", "offset": 9, "length": 3}, "ops 1.41 segment received: 3 octets at 9"),
        ({**about, "name": "Suspended", "condition": 14}, "ops 1.41 suspended: suspend request received"),
        ({**about, "name": "Resumed", "progress": 4}, "ops 1.41 resumed at octet 4"),
        ({**about, "name": "Report", "phase": "active", "progress": 4}, "ops 1.41 report: active, octets 4"),
        ({**about, "name": "Fault", "condition": 5}, "ops 1.41 fault: file checksum failure"),
        ({**about, "name": "Abandoned", "condition": 99}, "ops 1.41 abandoned: unknown condition"),
        ({**about, "name": "Transaction-Finished", "condition": 0, "delivery": "complete", "status": "retained"},
         "ops 1.41 finished: complete, retained"),
        ({**about, "name": "\x9bnews"}, "ops 1.41 \\x9bnews"),
        ({**at, "kind": "refused", "refusal": 20, "name": "DecodeFault", "fault": 3, "count": 2, "from": "192.0.2.1:4556"},
         "refused: DecodeFault 3, times 2, from 192.0.2.1:4556: it has a CRC, which has to be switched off"),
        ({**at, "kind": "refused", "refusal": 22, "name": "NotForUs"}, "refused: NotForUs: it is addressed to another entity"),
        ({**at, "kind": "refused", "refusal": 99, "name": "Newer"}, "refused: Newer"),
        ({**at, "kind": "start", "id": 2}, "the server starts as entity 2"),
        ({**at, "kind": "stored", "source": 1, "seq": 41, "status": "rejected"}, "1.41 file rejected"),
        ({**at, "kind": "stored", "source": 1, "seq": 41, "status": "rejected", "why": "no space is left"},
         "1.41 file rejected: no space is left"),
        ({**at, "kind": "journal-full", "user": "ops", "source": 1, "seq": 41}, "ops 1.41 abandoned: its journal is full"),
        ({**at, "kind": "put", "user": "ops", "source": 1, "seq": 41, "peer": 7, "class": 2, "file": "a", "to": "b", "size": 9,
          "queued": 3}, "ops 1.41 put: a to b, 9 B, for entity 7 in class 2, file 3 of the outbox"),
        ({**at, "kind": "unsent", "queued": 3, "user": "ops", "destination": 7, "file": "a", "why": "refused 9 X\x07"},
         "ops file 3 of the outbox is not sent: a, for entity 7: refused 9 X\\x07"),
        ({**at, "kind": "unparked", "count": 12}, "parked datagrams dropped for want of room: 12"),
        ({**at, "kind": "skipped", "user": "ops", "destination": 7, "count": 3, "next": 41},
         "ops transaction numbers skipped toward entity 7: 3, the next one is 41"),
        ({**at, "kind": "hold", "id": 7}, "the link to entity 7 is held"),
        ({**at, "kind": "release", "id": 7}, "the link to entity 7 is released"),
        ({**at, "kind": "end"}, "the server ends"),
    ]
    out = followed([event for event, _ in rows])
    seen = out.decode().split("\n")
    for place, (_, wanted) in enumerate(rows):
        want(f"event {place}", seen[place:place + 1] == ["2026-11-26 12:00:00.000Z " + wanted], (seen[place:place + 1], wanted))
    want("events, how many", len(seen) == len(rows) + 1, seen)


def at_a_terminal():
    with station("--transactions", "4", "--odd"):
        person, program = pty.openpty()
        run = subprocess.Popen([PROGRAM, "--control", SOCKET, "status", "--watch", "--width", "200"], stdin=program,
                               stdout=program, env=PLAIN)
        os.close(program)
        held, end = b"", time.monotonic() + PATIENCE
        while held.count(b"\x1b[H") < 3 and time.monotonic() < end:
            if select.select([person], [], [], 0.5)[0]:
                held += os.read(person, 65_536)
        run.kill()
        run.wait()
        os.close(person)
        want("a watch on a terminal", held.count(b"\x1b[H") >= 3 and b"B/s" in held and b"\x1b[1m" in held, held)
        want("a watch on a terminal, names", b"\\x1b[31m" in held, held)


def journal_at_a_terminal():
    """What a terminal would obey in a recording reaches a file, but no terminal."""
    with station():
        check("a recording, into a file", ctl("journal", "2.43"), 0, "# \x1b]0;a title\x07\u202e\n".encode())
        person, program = pty.openpty()
        run = subprocess.Popen([PROGRAM, "--control", SOCKET, "journal", "2.43"], stdin=program, stdout=program, env=PLAIN)
        os.close(program)
        run.wait(PATIENCE)
        held = os.read(person, 65_536)
        os.close(person)
        want("a recording on a terminal", held == b"# \\x1b]0;a title\\x07\\u00202e\r\n", held)


def status_over_restarts():
    """Tables that are refreshed go on with the next server."""
    run = None
    try:
        for turn in range(2):
            with station("--users", f"user{turn}"):
                if run is None:
                    run = subprocess.Popen([PROGRAM, "--control", SOCKET, "status", "--watch"], stdout=subprocess.PIPE,
                                           stderr=subprocess.PIPE, env=PLAIN)
                told = b""
                while b"user%d\n" % turn not in told:
                    want("a status over a restart", run.poll() is None, told)
                    told += os.read(run.stdout.fileno(), 65_536)
        run.terminate()
        _, errors = run.communicate(timeout=PATIENCE)
        want("a status over a restart, what is said", errors.count(b"; waiting for it\n") in (1, 2), errors)
    finally:
        if run is not None and run.poll() is None:
            run.kill()
            run.wait()


def utc(seconds):
    """The moment so many seconds from now, as a plan has it."""
    return time.strftime("%Y-%m-%dT%H:%M:%SZ", time.gmtime(time.time() + seconds))


def plan(*lines):
    """A file with these lines of a plan."""
    path = os.path.join(FOLDER, "plan")
    with open(path, "w", encoding="utf-8") as file:
        file.write("".join(line + "\n" for line in lines))
    return path


# Lines of a plan that can't be used, and what is said of each.
NO_WINDOWS = (
    ("2026-13-01T10:00:00Z 2026-12-01T11:00:00Z 7", "'2026-13-01T10:00:00Z' is not a moment in UTC, such as 2026-12-01T10:00:00Z"),
    ("2026-12-01T10:00:00Z 2026-12-01 11:00:00Z", "'2026-12-01' is not a moment in UTC, such as 2026-12-01T10:00:00Z"),
    ("2026-12-01T10:00:00Z 2026-12-01T10:00:00Z 7", "'2026-12-01T10:00:00Z' is not after the beginning of its window"),
    ("2026-12-01T10:00:00Z 2026-12-01T11:00:00Z seven # seven", "'seven' is not the number of an entity"),
    ("2026-12-01T10:00:00Z 2026-12-01T11:00:00Z 7 8k", "'8k' is not a number of octets a second from 1 to 1000000000, or off"),
    ("2026-12-01T10:00:00Z", "'2026-12-01T10:00:00Z' begins a line with fewer than three words: FROM UNTIL ENTITY [RATE]"),
    ("2026-12-01T10:00:00Z 2026-12-01T11:00:00Z 7 8000 ever", "'ever' is one word too many: FROM UNTIL ENTITY [RATE]"),
    ("2026-12-01T10:59:59Z 2026-12-01T12:00:00Z 5", "'2026-12-01T10:59:59Z' begins before the window of line 3 has ended"))


def bad_plans():
    """Each line of a plan that can't be used is told, and nothing is done by it."""
    path = plan("# a contact plan", "", "  2026-12-01T10:00:00Z\t2026-12-01T11:00:00Z 5 off # a comment", *[line for line, _ in NO_WINDOWS])
    wanted = "".join(f"cfdp_ctl: {path}: line {place}: {why}\n" for place, (_, why) in enumerate(NO_WINDOWS, 4)).encode()
    with station():
        for words in (["windows", path], ["windows", path, "--check"]):
            run = ctl(*words)
            want(f"a bad plan, {words}", (run.returncode, run.stdout, run.stderr) == (2, b"", wanted), run)
        path = plan(f"{utc(-60)} {utc(600)} 5", f"{utc(-60)} {utc(600)} 9", f"{utc(-60)} {utc(-30)} 8")
        run = ctl("windows", path)
        want("an entity that the server doesn't have", (run.returncode, run.stdout, run.stderr) ==
             (2, b"", f"cfdp_ctl: {path}: line 2: '9' is not an entity of the server\n".encode()), run)
        want("nothing is done by a bad plan", not any(line["held"] or "open_until" in line for line in lines_like("remote")), lines_like("remote"))
        run = ctl("windows", plan(f"{utc(-60)} {utc(-30)} 5"))
        want("a plan of the past", (run.returncode, run.stdout) == (0, b"") and b"no window is left\n" in run.stderr, run)
    check("a plan that isn't there", ctl("windows", "missing", "--check"), 3, b"", b"missing: no such file\n")
    for words, why in ((["windows"], b"error: windows needs one file with a plan\n"), (["windows", "a", "b"], b"windows needs one file"),
                       (["windows", "a", "--json"], b"--json doesn't go with windows"), (["status", "--check"], b"--check doesn't go with status")):
        check(f"{words}", ctl(*words), 2, b"", why)


def plans_as_tables():
    """A plan as a table, without a server: what is open, what comes and in how long, in the order of time."""
    path = plan("2999-12-01T10:00:00Z 2999-12-01T11:00:00Z 7 8000", "2001-02-03T04:05:06Z 2999-01-01T00:00:00Z 5 off", "2001-01-01T00:00:00Z 2001-01-01T00:01:00Z 12",
                f"{utc(7_290)} {utc(10_000)} 3 1")
    run = ctl("windows", "--check", path, control=False)
    lines = run.stdout.decode().splitlines()
    want("a plan as a table", run.returncode == 0 and len(lines) == 5 and lines[0] == "entity  from                  until                 rate            now", run)
    want("a window that is over", lines[1] == "12      2001-01-01T00:00:00Z  2001-01-01T00:01:00Z  -               over", lines)
    want("a window that is open", lines[2].startswith("5       2001-02-03T04:05:06Z  2999-01-01T00:00:00Z  no limit        open, ")
         and lines[2].endswith(" h left"), lines)
    want("a window that comes", lines[3].startswith("3  ") and lines[3].endswith("  1 B/s           in 2 h 1 min"), lines)
    want("a window that comes much later", lines[4].startswith("7       2999-12-01T10:00:00Z  2999-12-01T11:00:00Z  8000 B/s        in ") and " d " in lines[4], lines)


def given(run):
    """The commands that a plan's run has given, all of which were taken."""
    lines = run.decode().splitlines()
    want("what a plan's run prints", all(line[20] == " " and line.endswith(": ok") for line in lines), lines)
    return [line[21:-4] for line in lines]


def plans_that_run():
    """Links are opened and held at their moments, and the run ends with its last window."""
    with station():
        path = plan(f"{utc(-60)} {utc(5)} 5 8000", f"{utc(7)} {utc(9)} 5", f"{utc(3)} {utc(90_000)} 7 off")
        run = subprocess.Popen([PROGRAM, "--control", SOCKET, "windows", path], stdout=subprocess.PIPE, env=PLAIN)
        wait_for("a link that is held outside its windows", lambda: [line["held"] for line in lines_like("remote")] == [False, True])
        wait_for("both open", lambda: all("open_until" in line for line in lines_like("remote")))
        wait_for("the end of the first window", lambda: lines_like("remote")[0]["held"])
        wait_for("the second window", lambda: not lines_like("remote")[0]["held"])
        run.terminate()
        told = given(run.communicate(timeout=PATIENCE)[0])
        want("the first commands", told[:3] == ["rate 5 8000", "release 5 5", "hold 7"] or told[:3] == ["rate 5 8000", "release 5 4", "hold 7"], told)
        want("the next commands", told[3:] in (["rate 7 off", "release 7 86400", "release 5 2"], ["rate 7 off", "release 7 86400", "release 5 1"]), told)
        run = ctl("windows", plan(f"{utc(-60)} {utc(3)} 5", f"{utc(-60)} {utc(1)} 7"))
        want("a run that ends with its last window", run.returncode == 0 and 1 < run.took < PATIENCE and len(given(run.stdout)) == 2, run)


def plans_over_restarts():
    """What is open is opened again at the next server, and all else is held there."""
    path, run = plan(f"{utc(-60)} {utc(600)} 5", f"{utc(600)} {utc(700)} 7"), None
    try:
        for turn in range(2):
            with station():
                if run is None:
                    run = subprocess.Popen([PROGRAM, "--control", SOCKET, "windows", path], stdout=subprocess.PIPE, stderr=subprocess.PIPE, env=PLAIN)
                wait_for(f"what is open, turn {turn}", lambda: "open_until" in lines_like("remote")[0] and lines_like("remote")[1]["held"])
        run.terminate()
        out, errors = run.communicate(timeout=PATIENCE)
        told = [line.split()[0:2] for line in given(out)]
        want("a plan over a restart", told == [["release", "5"], ["hold", "7"]] * 2 and errors.count(b"; waiting for it\n") in (1, 2), (out, errors))
    finally:
        if run is not None and run.poll() is None:
            run.kill()
            run.wait()


def plans_killed(sender):
    """A run that is killed leaves no link open: the server holds it when its window ends."""
    remote = lambda: next(line for line in map(json.loads, sender.ctl(PROGRAM, "status", "--json").stdout.splitlines()) if line["kind"] == "remote")
    run = subprocess.Popen([PROGRAM, "--control", sender.path, "windows", plan(f"{utc(-60)} {utc(6)} 2 1000000")], stdout=subprocess.PIPE, env=PLAIN)
    wait_for("a window of a server", lambda: "open_until" in remote())
    run.kill()
    told = given(run.communicate(timeout=PATIENCE)[0])
    want("what a server was given", told[0] == "rate 2 1000000" and told[1].startswith("release 2 ") and len(told) == 2, told)
    wait_for("the end of a window of a server", lambda: remote()["held"])
    want("a server's link", sender.ctl(PROGRAM, "release", "2").returncode == 0, remote())


def resends():
    """A file is sent again as it was sent, unless it isn't known, not there any more, or another one."""
    path, told = os.path.join(FOLDER, "again"), os.path.join(FOLDER, "told")
    with open(path, "wb") as file:
        file.write(b"x" * 300)
    with station("--transactions", "1", "--pace", "1"):
        check("a file", ctl("send", "--to", "5", "--class", "1", "--into", "in", "--wait", "again"), 0)
        check("resend", ctl("resend", "1.100"), 0, f"queued 2: {path}\n".encode())
        has_ended(101)
        sent = [{name: line[name] for name in ("user", "peer", "class", "file", "to", "size")} for line in lines_like("transaction") if line["role"] == "sender"]
        want("a file that is sent again", sent == [{"user": "ops", "peer": 5, "class": 1, "file": "again", "to": "in/again", "size": 300}] * 2, sent)
        check("resend of a file that came", ctl("resend", "7.0"), 3, b"", b"cfdp_ctl: 7.0: its file was received here, and not sent\n")
        check("resend of a transaction that nobody knows", ctl("resend", "1.999"), 3, b"", b"cfdp_ctl: 1.999: its file isn't known: ")
        check("resend of no transaction", ctl("resend", "again"), 2, b"", b"error: resend: 'again' is not a transaction (SOURCE.SEQ)\n")
        check("resend with a word too many", ctl("resend", "1.100", "again"), 2, b"", b"resend doesn't take the word 'again'\n")
        put = {"at": "2999-01-01T00:00:00.000Z", "number": 1, "kind": "put", "user": "ops", "source": 1, "seq": 41, "peer": 5, "class": 2, "file": path,
               "to": "b", "size": 300}
        with open(told, "w", encoding="utf-8") as log:
            log.write("no JSON\n" + json.dumps({**put, "to": "a"}) + "\n" + json.dumps(put) + "\n")
        check("resend of a file that only a log has", ctl("resend", "1.41", "--log", told), 0, f"queued 3: {path}\n".encode())
        has_ended(102)
        want("a file of a log", [line["to"] for line in lines_like("transaction") if line["seq"] == 102] == ["b"], lines_like("transaction"))
        check("resend with a log that isn't there", ctl("resend", "1.41", "--log", "missing"), 3, b"", b"missing: no such file\n")
        os.utime(path, (time.time() + 10, time.time() + 10))
        changed = f": {path}: the file changed since it was sent; send puts it into the outbox as it is now\n".encode()
        check("resend of a file that was written", ctl("resend", "1.100"), 3, b"", b"cfdp_ctl: 1.100" + changed)
        with open(path, "ab") as file:
            file.write(b"x")
        os.utime(path, (0, 0))
        check("resend of a file that is longer", ctl("resend", "1.100"), 3, b"", b"cfdp_ctl: 1.100" + changed)
        os.unlink(path)
        check("resend of a file that is gone", ctl("resend", "1.100"), 3, b"", f"cfdp_ctl: 1.100: {path}: the file is gone\n".encode())
    with station("--step", "60", "--refuse"):
        check("resend that a server refuses", ctl("resend", "1.41", "--log", told), 3, b"", b"the file is gone\n")
        with open(path, "wb") as file:
            file.write(b"x" * 300)
        check("resend that a server refuses", ctl("resend", "1.41", "--log", told), 3, b"", f"cfdp_ctl: {path}: refused OutboxFull\n".encode())
    with station("--step", "60"):
        check("a file", ctl("send", "--to", "5", "again"), 0)
        wait_for("a transaction", lambda: any(line["seq"] == 100 for line in lines_like("transaction")))
        check("resend of a transaction under way", ctl("resend", "1.100"), 3, b"", b"cfdp_ctl: 1.100: it is still under way\n")


def resent_by_servers(sender, receiver):
    """A server's file that ended is sent again, and arrives."""
    lines = lambda one: [line for line in map(json.loads, one.ctl(PROGRAM, "status", "--json").stdout.splitlines()) if line["kind"] == "transaction"]
    seq = next(line["seq"] for line in lines(sender) if line["file"] == "a.bin")
    run = sender.ctl(PROGRAM, "resend", f"1.{seq}")
    want("a file that a server sends again", run.returncode == 0 and run.stdout.startswith("queued ") and run.stdout.endswith(f": {FILE}\n"), run)
    came = lambda: [line for line in lines(receiver) if line["file"] == "a.bin" and line.get("status") == "retained"]
    wait_for("a file that came twice", lambda: len(came()) == 2)
    want("its names", {(line["file"], line["to"], line["size"]) for line in came()} == {("a.bin", "a.bin", 5000)}, came())


def many_files():
    """A server that is busy with many files, and one whose outbox is full, get time as long as files go on."""
    with station("--room", "3", "--step", "0.1"):
        run = ctl("send", "--to", "5", "--wait", *[f"{n}.bin" for n in range(10)])
        check("files for which the outbox has no room at first", run, 0, b"queued 10: 9.bin\n")
        want("files for which the outbox has no room at first, their ends", run.stdout.count(b": finished: complete, retained\n") == 10, run.stdout)
        check("files that nobody waits for", ctl("send", "--to", "5", *[f"{n}.bin" for n in range(10)]), 3, b"queued ", b"refused OutboxFull\n")
    with station("--talk", "9", "--step", "3"):
        check("a reply that comes late, after events", ctl("send", "--to", "5", "--wait", FILE), 0, b": finished: complete, retained\n")
    with station("--flood", "70000", "--step", "3"):
        check("too many events before a reply", ctl("send", "--to", "5", "--wait", FILE), 1, b"queued 1", b"too many events before its answer\n")
    with station("--step", "1", "--levels"):
        check("hold", ctl("hold", "5"), 0)
        folder = hot_folder("hot", {"a": 1})
        runs = [subprocess.Popen([PROGRAM, "--control", SOCKET, *words], stdout=subprocess.DEVNULL, env=PLAIN)
                for words in (["send", "--to", "5", "--wait", FILE], ["watch", folder, "--to", "5", "--once"])]
        wait_for("who follows events", lambda: len(lines_like("entity")[0]["levels"]) == 2)
        want("which events they follow", lines_like("entity")[0]["levels"] == ["info", "info"], lines_like("entity"))
        check("release", ctl("release", "5"), 0)
        want("files after a release", [run.wait(PATIENCE) for run in runs] == [0, 0], runs)


def sends_again():
    """A file that didn't arrive is sent again, as often as the line says."""
    with station("--lose", "lost.bin", "--lost", "2"):
        run = ctl("send", "--to", "5", "--wait", "--retry", "2", FILE, LOST)
        check("a file that arrives at the third try", run, 0, b"lost.bin\n")
        want("a file that arrives at the third try, its lines", (run.stdout.count(b"queued "), run.stdout.count(b"incomplete, discarded\n"),
             run.stdout.count(b"complete, retained\n")) == (4, 2, 2), run.stdout)
    with station("--lose", "lost.bin"):
        run = ctl("send", "--to", "5", "--wait", "--retry", "1", LOST)
        check("a file that never arrives", run, 4)
        want("a file that never arrives, its lines", run.stdout.count(b"incomplete, discarded\n") == 2, run.stdout)
    with station("--unreadable", "lost.bin"):
        run = ctl("send", "--to", "5", "--wait", "--retry", "3", LOST)
        check("a file that can't be read isn't sent again", run, 4)
        want("a file that can't be read isn't sent again, its lines", run.stdout.count(b"queued ") == 1, run.stdout)


def folders():
    """A folder stands for its files, which are named relative to it."""
    top = os.path.join(FOLDER, "tree")
    os.makedirs(os.path.join(top, "below", "deep"), exist_ok=True)
    names = ["a", "below/b c", "below/deep/.c", "z"]
    for name in names:
        with open(os.path.join(top, name), "wb") as file:
            file.write(name.encode())
    if not os.path.lexists(os.path.join(top, "a link")):
        os.symlink(FILE, os.path.join(top, "a link"))
    with station("--transactions", "0"):
        check("a folder that isn't meant", ctl("send", "--to", "5", "tree"), 3, b"", b"no such file: tree\n")
        for words in (["-r", "tree"], ["--recursive", top + "/"]):
            run = ctl("send", "--to", "5", "--into", "in", "--wait", *words)
            check(f"a folder {words}", run, 0)
            want(f"a folder {words}, its files", run.stdout.count(b": finished: complete, retained\n") == 4, run.stdout)
        seen = [(line["file"], line["to"]) for line in lines_like("transaction")]
        want("the names of a folder's files", seen == [(name, "in/" + name) for name in names] * 2, seen)
        check("a folder and a file", ctl("send", "--to", "5", "-r", "tree", FILE), 0, b"queued 13: " + FILE.encode())
        check("a folder that isn't there", ctl("send", "--to", "5", "-r", FILE, "missing"), 3, b"", b"no such file: missing\n")


def checks():
    """A line for monitoring, by what a status says."""
    sender = {"kind": "transaction", "source": 1, "seq": 4, "user": "ops", "role": "sender", "peer": 5, "class": 2}
    lost = {"state": "ended", "condition": 8, "delivery": "incomplete", "status": "discarded"}
    kept = {"state": "ended", "condition": 0, "delivery": "complete", "status": "retained"}
    good = [{"kind": "entity", "id": 1}, {"kind": "log", "failing": False}, {"kind": "remote", "id": 5, "held": False},
            {**sender, **kept}, {"kind": "storing", "source": 9, "seq": 1}]
    queued = {"kind": "queued", "number": 1, "destination": 5}
    for lines, status, line in (
            (good, 0, "OK: files to send: 0"), (good + [{**sender, "state": "active"}, queued], 0, "OK: files to send: 2"),
            (good + [{"kind": "remote", "id": 7, "held": True}], 1, "WARNING: links held: 1, files to send: 0"),
            (good + [{**sender, **lost}] * 2, 1, "WARNING: transactions failed: 2, files to send: 0"),
            (good + [{"kind": "storing", "why": "no space is left"}], 1, "WARNING: received files not stored: 1, files to send: 0"),
            ([{"kind": "log", "failing": True}], 1, "WARNING: the log can't be written, files to send: 0"),
            (good + [queued] * 1023, 0, "OK: files to send: 1023"),
            (good + [queued] * 1024, 2, "CRITICAL: the outbox is full, files to send: 1024"),
            (good + [queued] * 1023 + [{**sender, "state": "active"}, {**sender, **lost}], 2,
             "CRITICAL: the outbox is full, transactions failed: 1, files to send: 1024")):
        with station(*said(lines)):
            run = ctl("check")
            want(f"a check of {lines[-1]}", (run.returncode, run.stdout, run.stderr) == (status, line.encode() + b"\n", b""), run)
    os.unlink(SOCKET)
    for option, why in ((None, "no server answers at the control socket"), ("--busy", "the server has no seat for another client")):
        with station(option) if option else contextlib.nullcontext():
            run = ctl("check")
            want(f"a check, {why}", (run.returncode, run.stdout) == (2, f"CRITICAL: {SOCKET}: {why}\n".encode()), run)
    with station("--old"):
        check("a check of a server without status", ctl("check"), 2, b"CRITICAL: bad command\n")


def long_names():
    """A path or a name at the receiver that no command takes is told, and the other files go."""
    deep = os.path.join(FOLDER, "d" * 200)
    os.makedirs(deep, exist_ok=True)
    name = "n" * (255 - len(deep) - 1)
    for one in (name, name + "n"):
        with open(os.path.join(deep, one), "wb") as file:
            file.write(b"x")
    with station("--transactions", "0"):
        run = ctl("send", "--to", "5", "--wait", os.path.join(deep, name + "n"), os.path.join(deep, name))
        check("a path that is too long", run, 3, b"queued 1: ", b"nn: its path or its name at the receiver has more than 255 octets\n")
        want("a path that is not", run.stdout.count(b"finished: complete, retained\n") == 1, run.stdout)
        run = ctl("send", "--to", "5", "--into", "i" * 250, FILE)
        check("a name at the receiver that is too long", run, 3, b"", b"has more than 255 octets\n")


def events():
    with station("--lose", "lost.bin"):
        run = subprocess.Popen([PROGRAM, "--control", SOCKET, "follow"], stdout=subprocess.PIPE, stderr=subprocess.PIPE,
                               env=PLAIN)
        chosen = {words: subprocess.Popen([PROGRAM, "--control", SOCKET, "follow", "--json", *words], stdout=subprocess.PIPE,
                                          stderr=subprocess.PIPE, env=PLAIN)
                  for words in [("--user", "nobody"), ("--transaction", "1.101"), ("--user", "ops", "--transaction", "1.100")]}
        has_clients(4)
        check("a put beside followers", ctl("put", "ops", "0", "2", "5", FILE, "b.bin"), 0)
        check("a put of a file that is lost", ctl("put", "ops", "0", "2", "5", LOST, "c.bin"), 0)
        has_ended(100, 101)
        ctl("quit")
        out, errors = run.communicate(timeout=PATIENCE)
        want("follow, its status", run.returncode == 1 and b"went away" in errors, (run.returncode, errors))
        for words in (b" ops 1.100 put: ", b" to b.bin, 4.8 KiB, for entity 5 in class 2\n",
                      b" ops 1.100 EOF sent\n", b" ops 1.100 finished: complete, retained\n",
                      b" ops 1.101 finished: inactivity detected, incomplete, discarded\n"):
            want(f"follow, {words}", words in out, out)
        for words, count in zip(chosen, (0, 3, 3)):
            out, _ = chosen[words].communicate(timeout=PATIENCE)
            want(f"follow {words}", chosen[words].returncode == 1 and out.count(b"\n") == count, (words, out))


def last_events():
    """The events that a server has kept come first, as many as are asked for."""
    with station("--transactions", "0"):
        for name in ("b", "c"):
            check("a put before a follower", ctl("put", "ops", "0", "2", "5", FILE, name), 0)
        has_ended(100, 101)
        runs = [subprocess.Popen([PROGRAM, "--control", SOCKET, "follow", "--json", "--last", count], stdout=subprocess.PIPE,
                                 stderr=subprocess.DEVNULL, env=PLAIN) for count in ("0", "2", "1024")]
        has_clients(3)
        ctl("quit")
        seen = [[json.loads(line)["number"] for line in run.communicate(timeout=PATIENCE)[0].splitlines()] for run in runs]
        want("the last events", seen == [[], [6, 7], [1, 2, 3, 4, 5, 6, 7]], seen)


def next_servers():
    """Who follows again waits for the next server, and gets its events too; of a level those and above."""
    run = None
    try:
        for turn in range(3):
            with station("--lose", "lost.bin"):
                if run is None:
                    run = subprocess.Popen([PROGRAM, "--control", SOCKET, "follow", "--json", "--level", "warning", "--follow-again"],
                                           stdout=subprocess.PIPE, stderr=subprocess.PIPE, env=PLAIN)
                has_clients(1)
                check("a lost file beside a follower", ctl("put", "ops", "0", "2", "5", LOST, f"{turn}.bin"), 0)
                has_ended(100)
        run.terminate()
        out, errors = run.communicate(timeout=PATIENCE)
        seen = [(event["name"], event["level"]) for event in map(json.loads, out.splitlines())]
        want("follow again", seen == [("Transaction-Finished", "warning")] * 3, out)
        want("follow again, what is said", errors.count(b"waiting for it") in (2, 3), errors)
    finally:
        if run is not None and run.poll() is None:
            run.kill()
            run.wait()


def sends():
    for name in ODD:
        with open(os.path.join(FOLDER, name), "wb") as file:
            file.write(b"x" * 5000)
    with station():
        run = ctl("send", "--to", "5", "--into", "in box", "--wait", *ODD)
        check("files of any name", run, 0, b"queued 3: n\\x0al.bin\n")
        want("files of any name, their ends", run.stdout.count(b": finished: complete, retained\n") == 4, run.stdout)
        for line in ctl("status", "--json").stdout.splitlines():
            line = json.loads(line)
            if line.get("role") == "sender":
                name = ODD[line["seq"] - 100]
                want(f"where {name!r} comes from and goes to",
                     (line["file"], line["to"]) == (name, "in box/" + name), line)
        check("a file", ctl("send", "--to", "5", FILE), 0, b"queued 5: ")
        for missing in ("missing.bin", FOLDER, FILE + "/", "\x1b[2J"):
            run = ctl("send", "--to", "5", FILE, missing)
            check("a file that isn't there", run, 3, b"", b"no such file: " + missing.replace("\x1b", "\\x1b").encode())
            want("a file that isn't there, before anything is sent", run.stdout == b"", run.stdout)
        check("the next number", ctl("send", "--to", "5", "--class", "1", "--closure", FILE), 0, b"queued 6: ")
        run = ctl("send", "--to", "5", "--class", "1", "--wait", FILE)
        check("class 1 without closure", run, 0, b": sent completely; no report was asked for\n")
        run = ctl("send", "--to", "5", "--class", "1", "--closure", "--wait", FILE)
        check("class 1 with closure", run, 0, b": finished: complete, retained\n")
        hundred = [f"{n}.bin" for n in range(100)]
        for name in hundred:
            with open(os.path.join(FOLDER, name), "wb") as file:
                file.write(name.encode())
        run = ctl("send", "--to", "5", "--wait", *hundred)
        check("a hundred files", run, 0)
        want("a hundred files, their ends", run.stdout.count(b"complete, retained\n") == 100, run.stdout)
    with station("--users", "ops,sim\x1b"):
        check("two users", ctl("send", "--to", "5", FILE), 2, b"", b"--user is missing, and the server's users are: ops sim\\x1b\n")
        check("one of two users", ctl("send", "--to", "5", "--user", "ops", FILE), 0)
        run = ctl("send", "--to", "5", "--user", "sim", FILE)
        check("a user that isn't there", run, 2, b"", b"--user sim: the server has no such user; its users are: ops sim\\x1b\n")
        want("a user that isn't there, before anything is sent", run.stdout == b"", run.stdout)
        run = ctl("send", "--to", "6", "--user", "ops", FILE)
        check("an entity that isn't there", run, 2, b"", b"--to 6: the server has no such entity; its entities are: 5 7\n")
        want("an entity that isn't there, before anything is sent", run.stdout == b"", run.stdout)


def bad_ends():
    for name in ("1.bin", "2.bin", "3.bin"):
        with open(os.path.join(FOLDER, name), "wb") as file:
            file.write(b"x")
    with station("--lose", "2.bin", "--unreadable", "3.bin"):
        run = ctl("send", "--to", "5", "--wait", "1.bin", "2.bin", "3.bin")
        check("a file that is lost", run, 4, b"2.bin: finished: inactivity detected, incomplete, discarded\n")
        want("a file that arrives", b"1.bin: finished: complete, retained\n" in run.stdout, run.stdout)
        want("a file that can't be read", b"\n3.bin: file 3 of the outbox is not sent: " in run.stdout
             and b"/3.bin, for entity 5: read fault\n" in run.stdout, run.stdout)
        check("a file that can't be read", ctl("send", "--to", "5", "--wait", "3.bin"), 4)
        check("no wait", ctl("send", "--to", "5", "2.bin"), 0)
    with station("--refuse"):
        run = ctl("send", "--to", "5", "--wait", "1.bin")
        check("a full outbox", run, 3, b"", b"cfdp_ctl: 1.bin: refused OutboxFull\n")
    for option in ("--vanish", "--stop"):
        with station(option, "1", "--step", "30"):
            run = ctl("send", "--to", "5", "--wait", "1.bin")
            check("a station that goes away", run, 1, b"queued 1", b"cfdp_ctl: ")
            want("a station that goes away, how long it took", run.took < 20, run.took)


def outbox():
    with station():
        check("hold", ctl("hold", "5"), 0, b"ok\n")
        check("hold, of nobody", ctl("hold", "6"), 3, b"refused UnknownRemote\n")
        check("journal", ctl("journal", "2.41"), 0, b"# a recording\ntake ops\n")
        check("journal, of nothing", ctl("journal", "2.42"), 3, b"refused 1 NoTransaction\n")
        check("journal, of no transaction", ctl("journal", "2-41"), 2, b"", b"error: journal: '2-41' is not a transaction")
        check("release, of nobody", ctl("release", "6"), 3, b"refused UnknownRemote\n")
        check("an outbox of nothing", ctl("outbox"), 0, b"")
        waiting = subprocess.Popen([PROGRAM, "--control", SOCKET, "send", "--to", "5", "--wait", FILE, LOST],
                                   stdout=subprocess.PIPE, env=PLAIN)
        wait_for("two files in the outbox", lambda: ctl("outbox", "--json").stdout.count(b"\n") == 2)
        run = ctl("outbox", "--width", "200")
        want("the outbox", run.stdout.startswith(b"Outbox\nnumber  user  to  class  since ")
             and f"{FILE} to a.bin\n".encode() in run.stdout and run.stdout.count(b"\n") == 5, run.stdout)
        run = ctl("outbox", "--json")
        want("the outbox as it comes", [json.loads(line)["number"] for line in run.stdout.splitlines()] == [1, 2], run.stdout)
        run = ctl("status", "--width", "200")
        check("a link that is held", run, 0, b"\nOutbox\n")
        want("a link that is held", b"192.0.2.5:4556, held since 20" in run.stdout, run.stdout)
        want("nothing is sent over a link that is held", waiting.poll() is None, waiting.returncode)
        check("drop", ctl("drop", "2"), 0, b"ok\n")
        check("drop, once more", ctl("drop", "2"), 3, b"refused NotQueued\n")
        check("release", ctl("release", "5"), 0, b"ok\n")
        out, _ = waiting.communicate(timeout=PATIENCE)
        want("a file that is dropped", waiting.returncode == 4 and b"for entity 5: dropped\n" in out
             and b"a.bin: finished: complete, retained\n" in out, (waiting.returncode, out))


def lines_of(*events):
    """A log with these events."""
    return b"".join(json.dumps(event).encode() + b"\n" for event in events)


def histories():
    """The transactions of logs of both ends, as lines and as JSON."""
    def at(second, **members):
        return {"at": f"2026-11-26T12:00:{second:06.3f}Z", "number": 1, **members}

    def told(second, seq, name, **members):
        return at(second, kind="indication", user="ops", source=1, seq=seq, name=name, **members)

    kept = {"condition": 0, "delivery": "complete", "status": "retained"}
    lost = {"condition": 8, "delivery": "incomplete", "status": "discarded"}
    put = {"kind": "put", "user": "ops", "source": 1, "peer": 7, "class": 2}
    near, older, far = (os.path.join(FOLDER, name) for name in ("near", "near.1", "far"))
    with open(older, "wb") as file:
        file.write(lines_of(at(0, kind="start", id=1, version="0.1"), at(1, **put, seq=4, file="gone", to="gone", size=1),
                            at(2, kind="start", id=1, version="0.1"),
                            at(3, **put, seq=5, file="a.bin", to="b.bin", size=4096)))
    with open(near, "wb") as file:
        file.write(lines_of(told(5, 5, "Transaction-Finished", **kept)) + b"no JSON\n[1]\n" + b"x" * 3_000_000 + b"\n"
                   + lines_of(told(6, 5, "Abandoned", condition=8, progress=1),
                              at(10.25, **put, seq=6, file="c\n.bin", to_hex="ff", size=100),
                              told(59.5, 6, "Transaction-Finished", **lost)))
    with open(far, "wb") as file:
        file.write(lines_of(at(0, kind="start", id=7, version="0.1"),
                            told(3.5, 5, "Metadata-Recv", origin=1, size=4096, file="a.bin", to="b.bin", messages=[]),
                            told(4.5, 5, "Transaction-Finished", **kept), told(5, 9, "Abandoned", condition=8, progress=0))
                   + b"x" * 2_097_152)
    first = b"2026-11-26 12:00:05.000Z  to 7        ops 1.5              4.0 KiB     2.000 s   2.0 KiB/s  " \
            b"complete, retained      a.bin to b.bin\n"
    second = b"2026-11-26 12:00:59.500Z  to 7        ops 1.6                100 B    49.250 s           -  " \
             b"inactivity detected, incomplete, discarded  c\\x0a.bin to \\xff\n"
    third = b"2026-11-26 12:00:04.500Z  from 1      ops 1.5              4.0 KiB     1.000 s   4.0 KiB/s  " \
            b"complete, retained      a.bin to b.bin\n"
    fourth = b"2026-11-26 12:00:05.000Z  from 1      ops 1.9                    -           -           -  " \
             b"abandoned, inactivity detected  ? to ?\n"
    sums = b"sent: 2, failed: 1, octets of the others: 4.0 KiB\nreceived: 2, failed: 1, octets of the others: 4.0 KiB\n" \
           b"without an end: 1\nlines that are not JSON objects, skipped: 4\n"
    run = ctl("history", "--log", older, near, far, control=False)
    check("a history", run, 0)
    want("a history, its lines", run.stdout == first + second + third + fourth + sums, run.stdout.decode())
    for words, lines in ((["--failed"], second + fourth), (["--remote", "7"], first + second), (["--remote", "1"], third + fourth),
                         (["--since", "2026-11-26T12:00:05Z"], first + second + fourth), (["--since", "2026-11-27"], b""),
                         (["--since", "2026-11-26T12:00:59.500Z"], second), (["--since", "2026-11-26T12:00:59.501Z"], b"")):
        run = ctl("history", *words, "--log", older, near, far)
        check(f"a history {words}", run, 0)
        want(f"a history {words}, its lines", run.stdout.startswith(lines + b"sent: "), run.stdout.decode())
    run = ctl("history", "--log", older, near, far, "--json")
    objects = [json.loads(line) for line in run.stdout.splitlines()]
    want("a history as JSON", objects[0] == {
        "at": "2026-11-26T12:00:05.000Z", "way": "sent", "peer": 7, "user": "ops", "source": 1, "seq": 5, "file": "a.bin",
        "to": "b.bin", "size": 4096, "milliseconds": 2000, "rate": 2048, "end": "kept", "how": "complete, retained"}, objects)
    want("a history as JSON, without what isn't known", objects[3] == {
        "at": "2026-11-26T12:00:05.000Z", "way": "received", "peer": 1, "user": "ops", "source": 1, "seq": 9, "file": "?", "to": "?",
        "end": "failed", "how": "abandoned, inactivity detected"}, objects)
    want("a history as JSON, its sums", objects[4] == {
        "sent": {"ended": 2, "failed": 1, "octets": 4096}, "received": {"ended": 2, "failed": 1, "octets": 4096},
        "unknown": {"ended": 0, "failed": 0, "octets": 0}, "open": 1, "skipped": 4}, objects)
    for day in ("2026-00-01", "2026-11-00", "2027-02-29", "1900-02-29", "2026-04-31", "2026-06-31", "2026-09-31",
                "2026-11-31", "2026-12-32", "2026-11-26T12:60", "2026-11-26T12:00:60", "2026-11-26T12:00:00.000ZZ"):
        check(f"since {day}", ctl("history", "--since", day, "--log", near, control=False), 2, b"", b"is not a moment")
    for day in ("2000-02-29", "2028-02-29", "2026-11-26T23:59:59.999Z", "2026-02-28",
                *(f"2026-{month:02}-{30 + (month in (1, 3, 5, 7, 8, 10, 12))}" for month in (1, *range(3, 13)))):
        check(f"since {day}", ctl("history", "--since", day, "--log", near, control=False), 0, b"sent: ")
    run = ctl("history", "--log", near)
    check("a history without its beginning", run, 0, b"12:00:05.000Z  with ?      ops 1.5 ")
    check("a log that isn't there", ctl("history", "--log", "missing", near), 3, b"sent: ", b"cfdp_ctl: missing: no such file\n")


def acts():
    """Commands for one transaction, and for several."""
    with station("--transactions", "200", "--users", "ops,sim", "--pace", "1"):
        check("cancel", ctl("cancel", "7.150"), 0, b"cancel 7.150: ok\n")
        check("cancel, of nothing", ctl("cancel", "7.900"), 3, b"", b"cfdp_ctl: no such transaction is under way\n")
        check("cancel, as the server reads it", ctl("cancel", "ops", "7", "150"), 0, b"ok\n")
        check("a word that is no transaction", ctl("resume", "150"), 3, b"refused 1 NoTransaction\n")
        run = ctl("abandon", "--user", "sim", "--yes")
        check("abandon, of a user", run, 0, b"abandon 7.151: ok\n")
        want("abandon, of a user, and of no other", b"7.150" not in run.stdout and run.stdout.count(b": ok\n") == 100, run.stdout)
        check("of another entity", ctl("resume", "--remote", "5", "--yes"), 0, b"", b"no such transaction")
        check("all", ctl("resume", "--all", "--yes"), 0, b"".join(b"resume 7.%d: ok\n" % number for number in range(200)))
        run = ctl("cancel", "--remote", "7", given=b"yes\n")
        check("nobody can be asked", run, 2, b"", b"transactions: without a terminal give --yes\n")
        want("nobody can be asked, and nothing is done", run.stdout == b"", run.stdout)
        for typed, status in ((b"yes\n", 0), (b"no\n", 2), (b"\n", 2)):
            person, program = pty.openpty()
            run = subprocess.Popen([PROGRAM, "--control", SOCKET, "suspend", "--user", "ops"], stdin=program,
                                   stdout=subprocess.PIPE, stderr=program, env=PLAIN)
            os.close(program)
            asked = b""
            while b"Type yes to go on:" not in asked:
                asked += os.read(person, 65_536)
            os.write(person, typed)
            out, _ = run.communicate(timeout=PATIENCE)
            os.close(person)
            want(f"who types {typed}", (run.returncode, b": ok\n" in out) == (status, status == 0), (run.returncode, out))


def choices():
    """Parts of a status."""
    sender = {"kind": "transaction", "user": "ops", "lane": 0, "role": "sender", "class": 2, "file": "a", "to": "b", "size": 9,
              "octets": 9, "events": 3, "last": "2026-11-26T12:00:00.000Z", "source": 1}
    kept = {"state": "ended", "condition": 0, "delivery": "complete", "status": "retained"}
    lost = {"state": "ended", "condition": 8, "delivery": "incomplete", "status": "discarded"}
    status = [{"kind": "entity", "id": 1}, {"kind": "user", "name": "ops", "waiting": 0, "capacity": 9},
              {**sender, "seq": 1, "peer": 5, **kept}, {**sender, "seq": 2, "peer": 5, **lost},
              {**sender, "seq": 3, "peer": 7, **lost}, {**sender, "seq": 4, "peer": 7, "state": "active"},
              {"kind": "queued", "number": 1, "destination": 5}, {"kind": "remote", "id": 5}, {"kind": "remote", "id": 7}]
    with station(*said(status)):
        for words, places in ((["--failed"], [0, 3, 4]), (["--remote", "7"], [0, 1, 4, 5, 8]), (["--remote", "5"], [0, 1, 2, 3, 6, 7]),
                              (["--failed", "--remote", "7"], [0, 4])):
            run = ctl("status", "--json", *words)
            check(f"status {words}", run, 0)
            want(f"status {words}, its lines", [json.loads(line) for line in run.stdout.splitlines()]
                 == [status[place] for place in places], run.stdout)
        run = ctl("status", "--failed")
        want("the tables of what failed", b"Ended\n" in run.stdout and b"1.2 " in run.stdout and b"1.1 " not in run.stdout
             and b"Users" not in run.stdout, run.stdout)


def an_urgent_file(sender, log):
    """All links are held and opened for a while, and of two files that waited meanwhile the urgent one goes first."""
    def told(words, status, text):
        run = sender.ctl(PROGRAM, *words)
        want(" ".join(words), (run.returncode, run.stdout) == (status, text), run)

    told(("hold", "all"), 0, "ok\n")
    told(("send", "--to", "2", FILE), 0, f"queued 3: {FILE}\n")
    told(("send", "--to", "2", "--urgent", LOST), 0, f"queued 4: {LOST}\n")
    for words in (("rate", "2", "1000000"), ("rate", "off"), ("release", "2", "600"), ("reopen",)):
        told(words, 0, "ok\n")
    told(("rate", "3", "1"), 3, "refused UnknownRemote\n")

    def puts():
        with open(log, encoding="utf-8") as lines:
            return [event["queued"] for event in map(json.loads, lines) if event["kind"] == "put"]

    wait_for("the files that waited", lambda: sorted(puts()) == [1, 2, 3, 4])
    want("the order of an urgent file", puts()[2:] == [4, 3], puts())
    wait_for("their ends", lambda: all(json.loads(line)["state"] == "ended" for line in sender.ctl(
        PROGRAM, "status", "--json").stdout.splitlines() if '"transaction"' in line))


def with_servers(server):
    """Two servers and their logs: what was sent is what their histories tell."""
    ports = [free_port(), free_port()]
    before = os.getcwd()
    os.chdir(FOLDER)
    both = []
    try:
        logs = [os.path.join(FOLDER, f"log{number}") for number in (1, 2)]
        # a file for nobody stays under way for a minute
        both += [Station(server, 1, ports[0], 2, ports[1], (f"log.file = '{logs[0]}'",), users=("alice",), limit=200),
                 Station(server, 2, ports[1], 1, ports[0], (f"log.file = '{logs[1]}'",), users=("alice",))]
        for one in both:
            one.client().close()
        sender = both[0]
        run = sender.ctl(PROGRAM, "send", "--to", "2", "--wait", FILE, LOST)
        want("files between servers", (run.returncode, run.stderr) == (0, ""), run)
        an_urgent_file(sender, logs[0])
        run = sender.ctl(PROGRAM, "send", "--to", "3", FILE)
        want("an entity that a server doesn't have", run.returncode == 2 and "its entities are: 2\n" in run.stderr, run)
        run = sender.ctl(PROGRAM, "send", "--to", "2", "--user", "bob", FILE)
        want("a user that a server doesn't have", run.returncode == 2 and "its users are: alice\n" in run.stderr, run)
        both[1].close()
        run = sender.ctl(PROGRAM, "send", "--to", "2", FILE)
        want("a file for nobody", run.returncode == 0, run)
        def under_way():
            lines = map(json.loads, sender.ctl(PROGRAM, "status", "--json", "--remote", "2").stdout.splitlines())
            return [one for one in lines if one["kind"] == "transaction" and one["state"] != "ended"]

        wait_for("a transaction that goes on", under_way)
        going = under_way()
        want("a transaction that goes on", len(going) == 1, going)
        name = f"{going[0]['source']}.{going[0]['seq']}"
        for verb in ("suspend", "resume"):
            run = sender.ctl(PROGRAM, verb, name)
            want(f"{verb} of a server", (run.returncode, run.stdout) == (0, f"{verb} {name}: ok\n"), run)
        run = sender.ctl(PROGRAM, "abandon", "--remote", "2", "--yes")
        want("abandon of a server", (run.returncode, run.stdout) == (0, f"abandon {name}: ok\n"), run)
        wait_for("the end in the log", lambda: not under_way() and "Abandoned" in open(logs[0], encoding="utf-8").read())
        run = sender.ctl(PROGRAM, "history", "--log", *logs, "--json")
        ended = [json.loads(line) for line in run.stdout.splitlines()]
        seen = sorted((one["way"], one["peer"], os.path.basename(one["file"]), one["size"], one["end"]) for one in ended[:-1])
        wanted = sorted([("sent", 2, "a.bin", 5000, "failed"), *2 * [
            (way, peer, name, 5000, "kept") for way, peer in (("sent", 2), ("received", 1)) for name in ("a.bin", "lost.bin")]])
        want("the history of two servers", seen == wanted, run.stdout)
        want("the sums of two servers", [ended[-1][key] for key in ("sent", "received", "open", "skipped")] == [
            {"ended": 5, "failed": 1, "octets": 20_000}, {"ended": 4, "failed": 0, "octets": 20_000}, 0, 0], ended[-1])
        # the receiver learns no folder of the sender's
        names = {one["file"] for one in ended[:-1] if one["way"] == "received"}
        want("the names that a receiver learns", names == {"a.bin", "lost.bin"}, names)
    finally:
        for one in both:
            one.close()
        os.chdir(before)


def plans_and_resends_of_servers(server):
    """Two servers, of which one sends a file again, and has a plan."""
    ports, before, both = [free_port(), free_port()], os.getcwd(), []
    home = os.path.join(FOLDER, "plans")
    os.makedirs(home, exist_ok=True)
    os.chdir(home)
    try:
        both += [Station(server, 1, ports[0], 2, ports[1], users=("alice",)), Station(server, 2, ports[1], 1, ports[0], users=("alice",))]
        for one in both:
            one.client().close()
        run = both[0].ctl(PROGRAM, "send", "--to", "2", "--wait", FILE)
        want("a file between servers", run.returncode == 0, run)
        resent_by_servers(*both)
        plans_killed(both[0])
    finally:
        for one in both:
            one.close()
        os.chdir(before)


def hot_folder_of_servers(server):
    """A hundred files over a lossy link, while who watches and the sending server restart: each is once in `sent`, and arrives."""
    ports, relay = [free_port(), free_port()], Relay(0.05)
    relay.join(*ports)
    before = os.getcwd()
    os.chdir(FOLDER)
    names = {f"{number:03}.bin": 100 + 37 * number for number in range(100)}
    folder = hot_folder("hot", names)
    started = []
    try:
        def start(number):
            peer = 3 - number
            words = (server, number, ports[number - 1], peer, relay.ports[number - 1], (f"sending.numbers = 'numbers{number}'",))
            # a file waits until the receiver gives up those of a sender that was killed, whose lanes they are in, several in turn: so
            # the sender has much more patience
            one = Station(*words, users=("alice",), limit=120 if number == 1 else 15)
            one.client().close()
            started.append(one)
            return one
        receiver, sender = start(2), start(1)
        line = [PROGRAM, "--control", sender.path, "watch", folder, "--to", "2"]
        for seconds in (3, 3):
            run = subprocess.Popen(line, stdout=subprocess.DEVNULL, stderr=subprocess.DEVNULL, env=PLAIN)
            time.sleep(seconds)
            sender.close()
            time.sleep(0.5)
            sender = start(1)
            time.sleep(1)
            run.kill()
            run.wait()
        run = subprocess.run([*line, "--once"], capture_output=True, timeout=400, env=PLAIN)
        want("a hot folder of servers", (run.returncode, left_in(folder)) == (0, ([], sorted(names), [])), (run, left_in(folder)))
        arrived = {path.name: path.stat().st_size for path in receiver.received().iterdir() if path.name in names}
        want("a hot folder of servers, at the receiver", arrived == names, arrived)
    finally:
        for one in started:
            one.close()
        relay.close()
        os.chdir(before)


def watched_server(server):
    """What a folder's file was when a server read it, and the name that its receiver learns."""
    ports = [free_port(), free_port()]
    before = os.getcwd()
    os.chdir(FOLDER)
    both = []
    try:
        log = os.path.join(FOLDER, "log of a receiver")
        both += [Station(server, 1, ports[0], 2, ports[1], users=("alice",), limit=200),
                 Station(server, 2, ports[1], 1, ports[0], (f"log.file = '{log}'",), users=("alice",))]
        for one in both:
            one.client().close()
        sender, receiver = both
        folder = hot_folder("hot", {"slow": 30_000, "waits": 50})

        def told(*words):
            run = sender.ctl(PROGRAM, *words)
            want(" ".join(words), run.returncode == 0, run)
            return [json.loads(line) for line in run.stdout.splitlines() if line.startswith("{")]

        def here(*words):
            return subprocess.Popen([PROGRAM, "--control", sender.path, "watch", folder, "--to", "2", *words], stdout=subprocess.PIPE,
                                    stderr=subprocess.PIPE, env=PLAIN)

        told("rate", "2", "2000")
        run = here()
        wait_for("a file under way", lambda: any(one["kind"] == "transaction" for one in told("status", "--json")))
        run.kill()
        run.communicate()
        with open(os.path.join(folder, "new"), "wb") as file:
            file.write(b"y" * 20_000)
        os.rename(os.path.join(folder, "new"), os.path.join(folder, "slow"))
        run = here("--once")
        wait_for("a second one who watches", lambda: told("status", "--json")[0]["clients"] > 1)
        told("rate", "2", "off")
        _, errors = run.communicate(timeout=PATIENCE)
        want("a file replaced while nobody watched, over servers", (run.returncode, left_in(folder)) == (0, ([], ["slow", "waits"], [])), errors)
        arrived = (receiver.received() / "slow").read_bytes()
        want("a file replaced while nobody watched, at the receiver", arrived == b"y" * 20_000, arrived[:10])
        with open(os.path.join(folder, "old"), "wb") as file:
            file.write(b"x" * 70)
        told("hold", "2")
        run = here("--once")
        wait_for("a file that waits", lambda: any(one["kind"] == "queued" for one in told("outbox", "--json")))
        os.rename(os.path.join(folder, "old"), os.path.join(folder, "renamed"))
        # the next look at the folder, twice a second
        time.sleep(2)
        told("release", "2")
        _, errors = run.communicate(timeout=PATIENCE)
        want("a file that is renamed while it waits", (run.returncode, left_in(folder)) == (0, ([], ["renamed", "slow", "waits"], [])), errors)
        want("a file that is renamed while it waits, at the receiver", (receiver.received() / "renamed").stat().st_size == 70, errors)
        with open(log, encoding="utf-8") as lines:
            names = {event["file"] for event in map(json.loads, lines) if event.get("name") == "Metadata-Recv"}
        want("the names that a receiver learns of a watched folder", names == {"slow", "waits", "renamed"}, names)
    finally:
        for one in both:
            one.close()
        os.chdir(before)


def full_outbox_of_servers(server):
    """More files than an outbox has room for, sent at once: each arrives, and nobody gives up while files go on."""
    ports = [free_port(), free_port()]
    before = os.getcwd()
    os.chdir(FOLDER)
    both = []
    try:
        both += [Station(server, 1, ports[0], 2, ports[1], users=("alice",), lanes=8, limit=200),
                 Station(server, 2, ports[1], 1, ports[0], users=("alice",), limit=200)]
        for one in both:
            one.client().close()
        folder = os.path.join(FOLDER, "many")
        os.makedirs(folder)
        for number in range(1_030):
            with open(os.path.join(folder, f"{number}"), "wb") as file:
                file.write(b"x" * 100)
        both[0].ctl(PROGRAM, "hold", "2")
        run = subprocess.Popen([PROGRAM, "--control", both[0].path, "send", "--to", "2", "--wait", "-r", folder], stdout=subprocess.PIPE,
                               stderr=subprocess.PIPE, env=PLAIN)
        # then the outbox is full; a status of so many files, asked for all the time, would keep the server busy
        queued = [run.stdout.readline() for _ in range(1_024)]
        want("files for a full outbox", all(line.startswith(b"queued ") for line in queued), queued[-1])
        both[0].ctl(PROGRAM, "release", "2")
        out, errors = run.communicate(timeout=800)
        want("more files than an outbox takes", (run.returncode, out.count(b": finished: complete, retained\n"), errors) == (0, 1_030, b""),
             (run.returncode, errors, out[-400:]))
    finally:
        for one in both:
            one.close()
        os.chdir(before)


def completions():
    """The words that bash offers."""
    script = os.path.join(os.path.dirname(os.path.abspath(__file__)), "..", "docs", "completion", "cfdp_ctl")
    for line, offered in (
            ([""], {"--colour", "--control", "abandon", "cancel", "check", "drop", "follow", "history", "hold", "journal", "outbox", "rate",
                    "release", "reopen", "resend", "resume", "send", "status", "suspend", "watch", "windows", "--help", "--version", "--wait-for-server", "--width"}),
            (["--c"], {"--colour", "--control"}), (["re"], {"release", "reopen", "resend", "resume"}), (["--control", "x", "sta"], {"status"}),
            (["status", "--"], {"--json", "--watch", "--failed", "--remote"}), (["outbox", "-"], {"--json"}),
            (["watch", "--"], {"--to", "--user", "--class", "--into", "--once", "--delete"}), (["follow", "--l"], {"--last", "--level"}),
            (["abandon", "--y"], {"--yes"}), (["send", "--to", "5", "--c"], {"--class", "--closure"}), (["send", "a"], set()),
            (["history", "--l"], {"--log"}), (["resend", "--"], {"--log"}), (["windows", "--"], {"--check"}), (["hold", "--"], set()), (["any"], set())):
        words = [PROGRAM, *line]
        run = subprocess.run(["bash", "-c", 'source "$1"; shift; COMP_WORDS=("$@"); COMP_CWORD=$(($# - 1)); _cfdp_ctl; '
                              'printf "%s\\n" "${COMPREPLY[@]}"', "bash", script, *words], capture_output=True, timeout=PATIENCE)
        want(f"what is offered for {line}", (set(run.stdout.decode().split()), run.stderr) == (offered, b""), run)


def sent_of(status):
    """The files that a station has been given, by what its status says."""
    objects = [json.loads(line) for line in status.splitlines()]
    return sorted((os.path.basename(one["file"]), one["size"]) for one in objects
                  if one["kind"] == "transaction" and one["role"] == "sender")


def hot_folder(name, files):
    """A folder with files, and with what is left alone."""
    folder = os.path.join(FOLDER, name)
    shutil.rmtree(folder, ignore_errors=True)
    os.makedirs(os.path.join(folder, "below"))
    os.symlink(FILE, os.path.join(folder, "a link"))
    for one, size in {**files, ".hidden": 3}.items():
        with open(os.path.join(folder, one), "wb") as file:
            file.write(b"x" * size)
    return folder


def left_in(folder):
    """What is in a hot folder, but for what is left alone, and in its folders for files that ended."""
    inside = {path: sorted(os.listdir(os.path.join(folder, path))) if os.path.isdir(os.path.join(folder, path)) else []
              for path in ("", "sent", "failed")}
    want(f"{folder}, what is left alone", {".hidden", "a link", "below"} <= set(inside[""]), inside)
    return (sorted(set(inside[""]) - {".cfdp_ctl.lock", ".hidden", "a link", "below", "sent", "failed"}), inside["sent"],
            inside["failed"])


def hot_folders():
    """Files that come into a folder: each is sent once and moved, whoever restarts meanwhile."""
    check("no folder", ctl("watch", "missing", "--to", "5"), 3, b"", b"cfdp_ctl: missing: no such file\n")
    check("a file as a folder", ctl("watch", FILE, "--to", "5"), 3, b"", b"it is not a folder\n")
    if os.getuid() != 0:
        with station("--transactions", "0"):
            folder = hot_folder("hot", {"a": 1})
            os.chmod(folder, 0o500)
            check("a folder that can't be written", ctl("watch", folder, "--to", "5"), 3, b"", f"cfdp_ctl: {folder}: permission denied\n".encode())
            os.chmod(folder, 0o700)
    with station("--users", "ops,sim", "--transactions", "0"):
        folder = hot_folder("hot", {"a": 1})
        check("a watch for an entity that isn't there", ctl("watch", folder, "--to", "6", "--user", "ops"), 2, b"", b"--to 6: the server has no")
        check("a watch for two users", ctl("watch", folder, "--to", "5"), 2, b"", b"--user is missing")
        want("a watch of nobody sends nothing", left_in(folder) == (["a"], [], []), left_in(folder))
    with station("--lose", "c.bin", "--unreadable", "b 1.bin", "--transactions", "0"):
        folder = hot_folder("hot", {"c.bin": 30, "a.bin": 10, "b 1.bin": 20, "d.bin": 40})
        run = ctl("watch", "hot", "--to", "5", "--into", "in", "--once")
        check("a folder of four files", run, 4, b"queued 1: a.bin\nqueued 2: b 1.bin\nqueued 3: c.bin\nqueued 4: d.bin\n")
        want("a folder of four files, where they are", left_in(folder) ==
             ([], ["a.bin", "d.bin"], ["b 1.bin", "b 1.bin.why", "c.bin", "c.bin.why"]), left_in(folder))
        with open(os.path.join(folder, "failed", "c.bin.why")) as file:
            why = file.read()
        want("why a file failed", why.endswith("Z ops 1.102 finished: inactivity detected, incomplete, discarded\n"), why)
        want("a folder of four files, their names at the receiver", sorted(
            json.loads(line)["to"] for line in ctl("status", "--json").stdout.splitlines() if b'"sender"' in line)
            == ["in/a.bin", "in/c.bin", "in/d.bin"], ctl("status", "--json").stdout)
        kept = os.path.join(folder, "sent", "a.bin")
        shutil.copy2(kept, folder)
        run = ctl("watch", folder, "--to", "5", "--once")
        check("a file that is in sent", run, 0, b"", b"cfdp_ctl: a.bin: it is in sent already, and isn't sent again\n")
        want("a file that is in sent stays", left_in(folder)[:2] == (["a.bin"], ["a.bin", "d.bin"]), left_in(folder))
        for _ in range(2):
            with open(os.path.join(folder, "a.bin"), "wb") as file:
                file.write(b"another")
            check("another file with the name of one in sent", ctl("watch", folder, "--to", "5", "--once"), 0, b"a.bin: finished: complete")
        want("files with one name", left_in(folder)[:2] == ([], ["a.bin", "a.bin.2", "a.bin.3", "d.bin"]), left_in(folder))
        check("an empty folder", ctl("watch", folder, "--to", "5", "--once"), 0, b"")
    with station("--transactions", "0"):
        name = "n" * (255 - len(os.path.join(FOLDER, "hot", "")))
        folder = hot_folder("hot", {name: 10})
        check("a file with the longest name", ctl("watch", folder, "--to", "5", "--once"), 0, b"finished: complete")
        want("a file with the longest name, where it is", left_in(folder) == ([], [name], []), left_in(folder))
        shutil.copy2(os.path.join(folder, "sent", name), folder)
        check("a file with the longest name that is in sent", ctl("watch", folder, "--to", "5", "--once"), 0, b"", b"it is in sent already")
        folder = hot_folder("hot", {name + "n": 10, "a": 1})
        run = ctl("watch", folder, "--to", "5", "--once")
        check("a file whose path is too long", run, 4, b"n: its path or its name at the receiver has more than 255 octets\n")
        want("a file whose path is too long, where it is", left_in(folder) == ([], ["a"], [name + "n", name + "n.why"]), left_in(folder))
    with station("--lose", "b", "--transactions", "0"):
        folder = hot_folder("hot", {"b": 10})
        os.mkdir(os.path.join(folder, "failed"))
        with open(os.path.join(folder, "failed", "b.why"), "wb") as file:
            file.write(b"another's")
        check("a file whose reason's name is taken", ctl("watch", folder, "--to", "5", "--once"), 4, b"queued 1: b\n")
        want("a file whose reason's name is taken, where it is", left_in(folder) == ([], [], ["b.2", "b.2.why", "b.why"]), left_in(folder))
    with station("--transactions", "0"):
        folder = hot_folder("hot", {"a.bin": 10})
        run = ctl("watch", folder, "--to", "5", "--class", "1", "--once")
        check("a folder in class 1", run, 0)
        want("a folder in class 1, where its file is", left_in(folder) == ([], ["a.bin"], []), left_in(folder))
    with station("--refuse", "--transactions", "0"):
        folder = hot_folder("hot", {"a.bin": 10})
        run = subprocess.Popen([PROGRAM, "--control", SOCKET, "watch", folder, "--to", "5"], stdout=subprocess.PIPE, env=PLAIN)
        time.sleep(3.5)
        want("a full outbox is tried again", run.poll() is None and left_in(folder) == (["a.bin"], [], []), left_in(folder))
        run.kill()
        run.communicate()
    with station("--faulty", "1", "--transactions", "0"):
        folder = hot_folder("hot", {"a.bin": 10})
        run = ctl("watch", folder, "--to", "5", "--once")
        check("a file that the outbox doesn't take at first", run, 0, b"queued 1: a.bin\n")
        want("a file that the outbox doesn't take at first, where it is", left_in(folder) == ([], ["a.bin"], []), left_in(folder))
        check("a file that the outbox doesn't take at first, with send", ctl("send", "--to", "5", FILE), 0, b"queued 2")
    hot_folders_change()
    hot_folders_move()
    hot_folders_restart()
    hot_folders_locked()
    hot_folders_deleted()


def hot_folders_change():
    """Files that are written while the folder is watched: none is sent before it has been the same for two seconds."""
    with station("--transactions", "0", "--step", "1"):
        folder = hot_folder("hot", {})
        path, size = os.path.join(folder, "growing"), 0
        run = subprocess.Popen([PROGRAM, "--control", SOCKET, "watch", folder, "--to", "5"], stdout=subprocess.PIPE, env=PLAIN)
        for _ in range(8):
            with open(path, "ab") as file:
                size += file.write(b"x" * 100)
            time.sleep(0.5)
        want("a file that grows", sent_of(ctl("status", "--json").stdout) == [], ctl("status", "--json").stdout)
        end = time.monotonic() + PATIENCE
        while left_in(folder) != ([], ["growing"], []) and time.monotonic() < end:
            time.sleep(0.1)
        want("a file that has grown", sent_of(ctl("status", "--json").stdout) == [("growing", size)], ctl("status", "--json").stdout)
        with open(path, "wb") as file:
            file.write(b"first")
        while len(sent_of(ctl("status", "--json").stdout)) < 2 and time.monotonic() < end:
            time.sleep(0.1)
        with open(path, "wb") as file:
            file.write(b"another one")
        while left_in(folder) != ([], ["growing", "growing.2"], []) and time.monotonic() < end:
            time.sleep(0.1)
        want("a file that changes while it is sent", sent_of(ctl("status", "--json").stdout) ==
             [("growing", 5), ("growing", 11), ("growing", size)], ctl("status", "--json").stdout)
        run.kill()
        run.communicate()


def watching(folder, *words):
    """Somebody who watches a folder."""
    return subprocess.Popen([PROGRAM, "--control", SOCKET, "watch", folder, "--to", "5", *words], stdout=subprocess.PIPE,
                            stderr=subprocess.PIPE, env=PLAIN)


def hot_folders_move():
    """A file that gets another content or another name at the wrong moment: what is in `sent` is what was sent last."""
    def sizes():
        return [size for _, size in sent_of(ctl("status", "--json").stdout)]

    with station("--transactions", "0"):
        folder = hot_folder("hot", {"slow": 100})
        kept = os.path.join(folder, "sent", "slow")
        run = watching(folder)
        wait_for("a file that has arrived", lambda: left_in(folder) == ([], ["slow"], []))
        with open(kept, "ab") as file:
            file.write(b"x" * 100)
        wait_for("a file whose writer went on", lambda: 200 in sizes())
        wait_for("a file whose writer went on, where it is", lambda: left_in(folder) == ([], ["slow"], []))
        want("a file whose writer went on, its content", (sizes(), os.path.getsize(kept)) == ([100, 200], 200), sizes())
        run.kill()
        _, errors = run.communicate()
        want("a file whose writer went on, what is said", b"slow: it changed since it was sent, and is sent again\n" in errors, errors)
    with station("--transactions", "0", "--step", "3"):
        folder = hot_folder("hot", {"a": 100, "b": 50})
        run = watching(folder)
        wait_for("files under way", lambda: sizes() == [100, 50])
        run.kill()
        run.communicate()
        with open(os.path.join(folder, "a.new"), "wb") as file:
            file.write(b"y" * 70)
        os.rename(os.path.join(folder, "a.new"), os.path.join(folder, "a"))
        run = watching(folder, "--once")
        _, errors = run.communicate(timeout=PATIENCE)
        want("a file that was replaced while nobody watched", (run.returncode, left_in(folder)) == (0, ([], ["a", "b"], [])), errors)
        want("a file that was replaced while nobody watched, what was sent", (sorted(sizes()), os.path.getsize(os.path.join(folder, "sent", "a")))
             == ([50, 50, 70, 100], 70), sizes())
    with station("--transactions", "0", "--step", "4"):
        folder = hot_folder("hot", {"a": 100})
        run = watching(folder, "--once")
        wait_for("a file under way", lambda: sizes() == [100])
        os.rename(os.path.join(folder, "a"), os.path.join(folder, "b"))
        run.communicate(timeout=PATIENCE)
        want("a file that is renamed while it is under way", (run.returncode, left_in(folder), sizes()) == (0, ([], ["b"], []), [100]), (left_in(folder), sizes()))


def hot_folders_deleted():
    """A file whose receiver keeps it is deleted after a while, and one that failed is not."""
    with station("--transactions", "0", "--lose", "b"):
        folder = hot_folder("hot", {"a": 10, "b": 20})
        check("a folder whose files are deleted", ctl("watch", folder, "--to", "5", "--once", "--delete"), 4)
        want("a folder whose files are deleted, what is left", left_in(folder) == ([], [], ["b", "b.why"]), left_in(folder))


def hot_folders_locked():
    """One program watches a folder, and tells a second one so."""
    with station("--transactions", "0"):
        folder = hot_folder("hot", {})
        run = watching(folder)
        wait_for("who watches", lambda: os.path.exists(os.path.join(folder, "sent")))
        check("a second who watches", ctl("watch", folder, "--to", "5", "--once"), 3, b"", f"cfdp_ctl: {folder}: another program watches this folder\n".encode())
        want("the first who watches", run.poll() is None, run.returncode)
        run.kill()
        run.communicate()
        check("the next who watches", ctl("watch", folder, "--to", "5", "--once"), 0)


def hot_folders_restart():
    """Who watches, and the server, end amid the files and begin again."""
    names = {f"{number:02}.bin": number for number in range(20)}
    folder = hot_folder("hot", names)
    line = [PROGRAM, "--control", SOCKET, "watch", folder, "--to", "5"]
    with station("--transactions", "0", "--step", "2", "--lanes", "3"):
        for wait in (3, 1.5, 1.5, 0):
            run = subprocess.Popen([*line, *(["--once"] if wait == 0 else [])], stdout=subprocess.DEVNULL, stderr=subprocess.DEVNULL, env=PLAIN)
            if wait:
                time.sleep(wait)
                run.kill()
            run.wait(PATIENCE)
        want("a watch that restarts", (run.returncode, left_in(folder)) == (0, ([], sorted(names), [])), (run.returncode, left_in(folder)))
        seen = sent_of(ctl("status", "--json").stdout)
        # what ended while nobody watched is sent again
        want("a watch that restarts sends what waits or goes only once", set(seen) == set(names.items()) and len(seen) <= len(names) + 9, seen)
    folder = hot_folder("hot", names)
    run = None
    for seconds in (3, 2, None):
        with station("--transactions", "0", "--step", "3"):
            if run is None:
                run = subprocess.Popen([*line, "--once"], stdout=subprocess.PIPE, stderr=subprocess.PIPE, env=PLAIN)
            if seconds:
                time.sleep(seconds)
            else:
                _, errors = run.communicate(timeout=PATIENCE)
    want("a server that restarts", (run.returncode, left_in(folder)) == (0, ([], sorted(names), [])), (run.returncode, errors, left_in(folder)))
    want("a server that restarts is waited for", errors.count(b"; waiting for it\n") in (2, 3), errors)


def progress():
    """On a terminal, a line for each file, which replaces the one before; elsewhere no progress."""
    with station("--step", "3"):
        person, program = pty.openpty()
        run = subprocess.Popen([PROGRAM, "--control", SOCKET, "send", "--to", "5", "--wait", *ODD[:3]], stdout=subprocess.PIPE,
                               stderr=program, env=PLAIN, cwd=FOLDER)
        os.close(program)
        out, _ = run.communicate(timeout=PATIENCE)
        held = b""
        while select.select([person], [], [], 0.2)[0]:
            try:
                held += os.read(person, 65_536)
            except OSError:
                break
        os.close(person)
        want("progress, its status", run.returncode == 0, (run.returncode, out))
        want("progress, its lines", b"%" in held and b" of 4.8 KiB  n\\x0al.bin\r\n" in held and b"\x1b[1A\x1b[2K" in held, held)
        # on a slow machine no line may be left to show before the last one is printed
        want("progress, its end", held.replace(b"\x1b[?7l\x1b[?7h", b"").endswith(b"\x1b[1A\x1b[2K"), held)
        want("progress, the output", b"\x1b" not in out and out.count(b"\n") == 6, out)


def pipes():
    with station("--transactions", "2000"):
        with subprocess.Popen([PROGRAM, "--control", SOCKET, "status"], stdout=subprocess.PIPE, env=PLAIN) as run:
            run.stdout.read(10)
            run.stdout.close()
            run.wait(PATIENCE)
        check("two thousand transactions", ctl("--wait-for-server", "200", "status"), 0)


for name in (FILE, LOST):
    with open(name, "wb") as file:
        file.write(b"x" * 5000)
SERVER = os.path.abspath(sys.argv[2]) if len(sys.argv) > 2 else None
PART = sys.argv[3] if len(sys.argv) > 3 else None


def all_but_folders():
    for case in (words_of_the_line, answers, no_answers, tables, layout, words_of_events, tones_of_events, at_a_terminal,
                 journal_at_a_terminal, status_over_restarts, events, last_events, next_servers, sends, many_files, sends_again, folders,
                 checks, long_names, bad_ends, bad_plans, plans_as_tables, plans_that_run, plans_over_restarts, resends, outbox, histories, acts,
                 choices, completions, progress, pipes):
        case()
    if SERVER:
        with_servers(SERVER)
        plans_and_resends_of_servers(SERVER)


def watched_folders():
    hot_folders()
    if SERVER:
        watched_server(SERVER)
        hot_folder_of_servers(SERVER)


if PART is None:
    all_but_folders()
    print("cfdp_ctl: words, answers, tables, events, files, histories, checks, and stations that go away")
if PART == "folders" or not SERVER:
    watched_folders()
    print("cfdp_ctl: files of watched folders, whatever happens to them meanwhile")
if PART == "full":
    full_outbox_of_servers(SERVER)
    print("cfdp_ctl: more files at once than an outbox has room for")
