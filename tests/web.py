#!/usr/bin/env python3
"""Tests the console over HTTP: tests/web.py CFDP_WEB. It is connected to a station with invented transactions."""
import base64
import hashlib
import http.client
import json
import os
import re
import select
import signal
import socket
import subprocess
import sys
import tempfile
import threading
import time

from support import fastest, fill_backlog, free_port

web = sys.argv[1]
here = os.path.dirname(os.path.abspath(__file__))
folder = tempfile.TemporaryDirectory()
control = os.path.join(folder.name, "control")
TOKEN = "a-token-of-the-test"
started = []
bad = []


def check(what, holds):
    print(("ok   " if holds else "FAIL ") + what, flush=True)
    if not holds:
        bad.append(what)


def start(*words):
    process = subprocess.Popen(words, stdout=subprocess.PIPE, stderr=subprocess.PIPE)
    started.append(process)
    return process


def stop(process):
    process.kill()
    process.wait()
    started.remove(process)


def wait_for(test, seconds=30):
    until = time.monotonic() + seconds
    while time.monotonic() < until:
        if test():
            return True
        time.sleep(0.05)
    return False


def start_station(*words):
    if os.path.exists(control):
        os.unlink(control)
    station = start(sys.executable, os.path.join(here, "fake_station.py"), control, *words)
    wait_for(lambda: os.path.exists(control))
    return station


def start_console(*words):
    port = free_port()
    console = start(web, "--control", control, "--listen", f"127.0.0.1:{port}", *words)

    def answers():
        try:
            socket.create_connection(("127.0.0.1", port)).close()
            return True
        except OSError:
            return False
    check("the console listens", wait_for(answers))
    return console, port


def ask(port, target, method="GET", host="", more=(), body=None):
    """Status, headers by lower-case names, and body. An empty host is the console's own; None leaves the header out."""
    connection = http.client.HTTPConnection("127.0.0.1", port, timeout=15)
    connection.putrequest(method, target, skip_host=True, skip_accept_encoding=True)
    if host is not None:
        connection.putheader("Host", host or f"127.0.0.1:{port}")
    for name, value in more:
        connection.putheader(name, value)
    if body is not None:
        connection.putheader("Content-Length", str(len(body)))
    connection.endheaders(body)
    answer = connection.getresponse()
    found = answer.status, {name.lower(): value for name, value in answer.getheaders()}, answer.read()
    connection.close()
    return found


def routes(port):
    status, headers, page = ask(port, "/")
    policy = headers.get("content-security-policy", "")
    check("/: the page", status == 200 and page.startswith(b"<!doctype html>") and headers["content-type"].startswith("text/html"))
    check("/: headers", headers.get("x-content-type-options") == "nosniff" and headers.get("referrer-policy") == "no-referrer"
          and headers.get("x-frame-options") == "DENY")
    check("/: the policy allows nothing else", re.sub(r"'sha256-[^']*'", "HASH", policy) == "default-src 'none'; style-src HASH; "
          "script-src HASH; connect-src 'self'; base-uri 'none'; form-action 'none'; frame-ancestors 'none'")
    for tag in ("style", "script"):
        parts = re.findall(rb"<%s>(.*?)</%s>" % (tag.encode(), tag.encode()), page, re.S)
        hashes = ["'sha256-" + base64.b64encode(hashlib.sha256(part).digest()).decode() + "'" for part in parts]
        check(f"/: the policy has the hash of its {tag}", len(hashes) == 1 and f"{tag}-src {hashes[0]};" in policy)
    named = set(re.findall(rb'\bat\("([a-z-]+)"\)', page)) | set(re.findall(rb'new Table\("([a-z]+)"', page))
    missing = named - set(re.findall(rb' id="([a-z-]+)"', page))
    check(f"/: what the script names stands in the page {missing or ''}", len(named) > 20 and not missing)
    ids = re.findall(rb' id="([a-z-]+)"', page)
    check("/: each ID once", len(ids) == len(set(ids)))
    check("/: the script makes no markup of text", not re.search(rb"innerHTML|outerHTML|insertAdjacentHTML|document\.write|\beval\b|new Function", page))
    check("/: no other host, no inline handlers", not re.search(rb"(https?:)?//[a-z]|<[^>]* (on[a-z]+|style|src|href)=", page.split(b"<script>")[0]))
    status, headers, body = ask(port, "/status.json")
    document = json.loads(body)
    check("/status.json: the lists", status == 200 and headers["content-type"] == "application/json"
          and [len(document[name]) for name in ("entities", "logs", "users", "transactions", "remotes", "refusals", "outbox", "parked",
                                                      "storing", "recorders")] == [1, 1, 1, 4, 2, 1, 0, 3, 2, 1])
    check("/status.json: files being stored, and recordings", "why" not in document["storing"][0]
          and document["storing"][1]["why"] == "no space is left"
          and document["recorders"] == [{"kind": "recorder", "kept": 7, "missed": 2, "failed": 1}])
    check("/status.json: a lane for which datagrams wait", document["parked"][0]["octets"] == 17000
          and document["parked"][2] == {"kind": "parked", "user": "ops", "lane": 2, "datagrams": 0, "transactions": 0, "octets": 0, "dropped": 5})
    check("/status.json: names are text or hex", document["transactions"][0]["file_hex"].endswith("ff") is True
          and document["transactions"][0]["to"] == "b0.bin")
    status, headers, body = ask(port, "/metrics")
    text = body.decode()
    check("/metrics: numbers", status == 200 and headers["content-type"].startswith("text/plain; version=0.0.4")
          and all(line in text for line in (
              "# TYPE cfdp_datagrams_received_total counter\ncfdp_datagrams_received_total 12\n", "cfdp_up 1\n",
              'cfdp_queue_bundles{user="ops"} 3\n', 'cfdp_refused_datagrams_total{reason="DecodeFault",fault="3"} 3\n',
              'cfdp_remote_held{remote="5"} 0\n', 'cfdp_transactions{state="active"} ',
              '# TYPE cfdp_parked_datagrams gauge\ncfdp_parked_datagrams{user="ops",lane="0"} 12\n',
              'cfdp_parked_datagrams{user="ops",lane="2"} 0\n', 'cfdp_parked_transactions{user="ops",lane="1"} 2\n',
              'cfdp_parked_octets{user="ops",lane="1"} 17000\n',
              '# TYPE cfdp_parked_dropped_total counter\ncfdp_parked_dropped_total{user="ops",lane="0"} 0\n',
              'cfdp_parked_dropped_total{user="ops",lane="2"} 5\n',
              "# TYPE cfdp_reading_files gauge\ncfdp_reading_files 3\n",
              "# TYPE cfdp_storing_files gauge\ncfdp_storing_files 2\n", "# TYPE cfdp_hindered_files gauge\ncfdp_hindered_files 1\n",
              "# TYPE cfdp_recordings_kept_total counter\ncfdp_recordings_kept_total 7\n", "\ncfdp_recordings_missed_total 2\n",
              "\ncfdp_recordings_failed_total 1\n")))
    heads = re.findall(r"^# TYPE (\S+)", text, re.M)
    check("/metrics, /status.json: nothing is counted", heads[-1] == "cfdp_hindered_files" and "delivered" not in document)
    check("/metrics: each family once, with help", len(heads) == len(set(heads)) and all(f"# HELP {head} " in text for head in heads))
    status, headers, body = ask(port, "/windows.json")
    check("/windows.json: no plan", status == 200 and headers["content-type"] == "application/json" and json.loads(body) == {"windows": [], "faults": []})
    check("/healthz: 200", ask(port, "/healthz")[0] == 200)
    found = wait_for(lambda: b"data: " in ask(port, "/events")[2])
    status, headers, body = ask(port, "/events")
    check("/events: server-sent events", found and status == 200 and headers["content-type"] == "text/event-stream"
          and body.startswith(b"retry: 1000\n\nid: "))
    ids = event_ids(port)
    run = json.loads(ask(port, "/status.json")[2])["entities"][0]["started"]
    check("/events: the IDs", ids == [f"{run}-{number + 1}" for number in range(len(ids))])
    check("/events: none behind the last", event_ids(port, ids[-1]) == [])
    for last in ("999", f"{run}-999", f"{run}-", "-1", "x" * 5000):
        check(f"/events: all behind {last[:40]}", event_ids(port, last) == ids)
    status, headers, body = ask(port, "/", method="HEAD")
    check("HEAD: no body", status == 200 and body == b"")


def refusals(port):
    own = f"127.0.0.1:{port}"
    for host in (f"localhost:{port}", f"LocalHost:{port}"):
        check(f"{host} is its name", ask(port, "/", host=host)[0] == 200)
    for host in ("evil.example", "127.0.0.1", "127.0.0.1:80", f"127.0.0.2:{port}", f"evil.example:{port}",
                 f"127.0.0.1.evil.example:{port}"):
        status, headers, body = ask(port, "/status.json", host=host)
        check(f"Host {host}: 403 and nothing more", status == 403 and body == b"" and "content-type" not in headers)
    check("no Host: refused", ask(port, "/", host=None)[0] in (400, 403))
    check("two Hosts: refused", ask(port, "/", more=[("Host", own)])[0] == 400)
    for site in ("cross-site", "same-site"):
        check(f"{site}: 403", ask(port, "/status.json", more=[("Sec-Fetch-Site", site)])[0] == 403)
    for site in ("same-origin", "none"):
        check(f"{site}: 200", ask(port, "/status.json", more=[("Sec-Fetch-Site", site)])[0] == 200)
    check("an absolute target: 400", ask(port, f"http://{own}/status.json")[0] == 400)
    for method in ("PUT", "DELETE", "OPTIONS", "POST"):
        status, headers, _ = ask(port, "/status.json", method=method, body=b"")
        check(f"{method}: 405", status == 405 and headers.get("allow") == "GET, HEAD")
    check("no such path: 404", ask(port, "/nothing")[0] == 404 and ask(port, "/../etc/passwd")[0] == 404)
    check("a long head: 431", ask(port, "/", more=[("X-Long", "x" * 20000)])[0] == 431)
    check("a long target: 414", ask(port, "/" + "x" * 20000)[0] == 414)
    with socket.create_connection(("127.0.0.1", port)) as raw:
        raw.settimeout(5)
        raw.sendall(b"\x16\x03\x01 no HTTP\r\n\r\n")
        check("no HTTP: 400", raw.recv(100).startswith(b"HTTP/1.1 400"))
    status, _, body = ask(port, "/command", method="POST", body=b"cancel ops 1 1", more=[("X-Console-Token", TOKEN)])
    check("without --commands no command is taken", status == 403 and body == b"")


def names():
    """The name of another host, with or without port 80, in upper or lower case."""
    for name in ("Console.example:80", "console.example"):
        console, port = start_console("--name", name)
        for host, status in (("console.example", 200), ("CONSOLE.example:80", 200), (f"127.0.0.1:{port}", 200),
                             ("console.example:81", 403), ("consolexexample", 403), (f"localhost:{port}", 403)):
            check(f"--name {name}, Host {host}: {status}", ask(port, "/healthz", host=host)[0] in ((200, 503) if status == 200 else (403,)))
        stop(console)


def token_files():
    """The first line of a token's file, without its end, is the token; an empty or too long line is not."""
    path = os.path.join(folder.name, "tokens")
    for text in (b"", b"\n" + TOKEN.encode(), b"\r\n", b"x" * 4097, b"x" * 4097 + b"\r\n", b"x" * 10_000 + b"\n"):
        with open(path, "wb") as file:
            file.write(text)
        ended = subprocess.run([web, "--control", control, "--listen", f"127.0.0.1:{free_port()}", "--commands", "--token-file", path],
                               capture_output=True, timeout=60)
        check(f"a token's file {text[:20]} of {len(text)} octets: 1", ended.returncode == 1 and b"no token" in ended.stderr)
    for text in (TOKEN.encode(), TOKEN.encode() + b"\r\nmore", b"x" * 4096 + b"\r\n"):
        with open(path, "wb") as file:
            file.write(text)
        console, port = start_console("--commands", "--token-file", path)
        token = text.split(b"\r\n")[0].decode()
        for given, status in ((token, 200), (token[:-1] + "y", 403), (token[:-1], 403), (token + "x", 403), ("", 403)):
            found = ask(port, "/command", method="POST", body=b"hold 5", more=[("X-Console-Token", given)])[0]
            check(f"a token's file of {len(text)} octets, a token of {len(given)}: {status}", found == status)
        stop(console)


def commands(port):
    def give(line, token=TOKEN, more=()):
        return ask(port, "/command", method="POST", body=line, more=[("X-Console-Token", token), *more])
    check("hold: ok", give(b"hold 5")[::2] == (200, b"ok\n"))
    check("the remote is held", wait_for(lambda: json.loads(ask(port, "/status.json")[2])["remotes"][0]["held"] is True))
    check("release: ok", give(b"release 5")[::2] == (200, b"ok\n"))
    lines = (b"hold all", b"release 5 60", b"rate 5 9000", b"rate off", b"release all")
    check("all links, a window and rates: ok", [give(line)[::2] for line in lines] == [(200, b"ok\n")] * len(lines))
    check("the limit of a link", wait_for(lambda: [r.get("rate") for r in json.loads(ask(port, "/status.json")[2])["remotes"]] == [9000, None]))
    check("a refusal is shown", give(b"cancel ops 1 41")[2] == b"refused 1 NoTransaction\n")
    check("abandon is passed on", give(b"abandon ops 1 41")[::2] == (200, b"refused 1 NoTransaction\n"))
    check("a transaction's script", give(b"journal 2 41")[::2] == (200, b"# a recording\ntake ops\n"))
    check("another refusal is shown", give(b"drop 1")[2] == b"refused NotQueued\n")
    check("a command that the station doesn't know is shown", give(b"drop x")[2] == b"bad command\n")
    for line in (b"quit", b"take ops", b"follow", b"", b"hold 5\nquit", b"hold 5\rquit", b"put ops 1 2 5 a b"):
        check(f"{line!r}: 400", give(line)[0] == 400)
    check("a wrong token: 403", give(b"hold 5", token="another")[0] == 403)
    check("no token: 403", ask(port, "/command", method="POST", body=b"hold 5")[0] == 403)
    check("another site: 403", give(b"hold 5", more=[("Sec-Fetch-Site", "cross-site")])[0] == 403)
    check("GET: 405", ask(port, "/command")[0] == 405)
    check("GET with a body: 405", ask(port, "/command", body=b"hold 5", more=[("X-Console-Token", TOKEN)])[0] == 405)
    time.sleep(0.6)
    check("what is refused isn't passed on", json.loads(ask(port, "/status.json")[2])["remotes"][0]["held"] is False)
    sent = os.path.join(folder.name, "a file")
    with open(sent, "wb") as file:
        file.write(b"x" * 1000)
    status, _, body = give(f'send ops 2 5 "{sent}" "b file"'.encode())
    check("send: queued", status == 200 and body == b"queued 1\n")


def many(port):
    wrong = []

    def visit():
        connection = http.client.HTTPConnection("127.0.0.1", port, timeout=30)
        for _ in range(25):
            connection.request("GET", "/status.json", headers={"Host": f"127.0.0.1:{port}"})
            answer = connection.getresponse()
            if answer.status != 200 or len(json.loads(answer.read())["transactions"]) < 4:
                wrong.append(answer.status)
        connection.close()
    threads = [threading.Thread(target=visit) for _ in range(20)]
    begun = time.monotonic()
    [thread.start() for thread in threads]
    [thread.join() for thread in threads]
    check(f"500 requests over 20 connections ({time.monotonic() - begun:.2f} s)", not wrong)


def stopped(port, station):
    """With a station that is stopped and lets nobody in, each route is answered in time, however many clients ask."""
    station.send_signal(signal.SIGSTOP)
    time.sleep(0.6)
    for title, waiting in (("a station that stands still", []), ("a station that lets nobody in", fill_backlog(control))):
        seen = []

        def visit(target, wanted, most):
            begun = time.monotonic()
            status = ask(port, target)[0]
            took = time.monotonic() - begun
            if status != wanted or took > most:
                seen.append((target, status, took))
        # the first ones wait for the station, two seconds at most, and the others don't; this machine may add some
        asked = [("/healthz", 503, 5)] * 8 + [("/status.json", 503, 5)] * 8 + [("/metrics", 200, 5)] * 4 \
            + [("/", 200, 1.9), ("/events", 200, 1.9)] * 4
        threads = [threading.Thread(target=visit, args=row) for row in asked]
        [thread.start() for thread in threads]
        [thread.join() for thread in threads]
        check(f"{title}: {len(asked)} answers in time {seen}", not seen)
        time.sleep(0.6)
        [client.close() for client in waiting]
    station.send_signal(signal.SIGCONT)
    check("a station that goes on", wait_for(lambda: ask(port, "/healthz")[0] == 200))


def event_ids(port, *last):
    """The IDs of the events after one, or of all."""
    body = ask(port, "/events", more=[("Last-Event-ID", one) for one in last])[2].decode()
    return re.findall("^id: (.*)$", body, re.M)


def restarted(port, old):
    """The ID of an event of a former run hides no event of this one."""
    check("another run's events", wait_for(lambda: event_ids(port)[:1] not in ([], old[:1])))
    now = event_ids(port)
    check("each run's IDs are its own", not set(old) & set(now) and now[0].endswith("-1"))
    check("the ID of another run: all events", event_ids(port, old[-1]) == now)


def slow(port):
    drips = [socket.create_connection(("127.0.0.1", port)) for _ in range(16)]
    begun = time.monotonic()
    closed = {}

    def drip(number, raw):
        raw.settimeout(20)
        try:
            for octet in b"GET / HTTP/1.1\r\nHost: 127.0.0.1\r\nX-Slow: " + b"x" * 100:
                raw.sendall(bytes([octet]))
                time.sleep(0.5)
        except OSError:
            closed[number] = time.monotonic() - begun
    threads = [threading.Thread(target=drip, args=pair) for pair in enumerate(drips)]
    [thread.start() for thread in threads]
    time.sleep(1)
    answered = []
    took = fastest(3, lambda: answered.append(ask(port, "/status.json")[0]))
    check("beside 16 slow clients others are answered", answered == [200] * 3 and took < 2)
    [thread.join() for thread in threads]
    check("a client that drips its head is closed after ten seconds", len(closed) == 16 and all(9 < at < 25 for at in closed.values()))


def silent(port):
    """A connection that sends nothing is closed after two seconds. One that has sent an octet has ten for its request, and one that was
    answered as many for the next."""
    kept = http.client.HTTPConnection("127.0.0.1", port, timeout=15)
    kept.request("GET", "/healthz", headers={"Host": f"127.0.0.1:{port}"})
    kept.getresponse().read()
    begun = time.monotonic()
    mute, begins = ([socket.create_connection(("127.0.0.1", port), timeout=20) for _ in range(4)] for _ in range(2))
    [one.sendall(b"G") for one in begins]
    closed = [(one.recv(1), time.monotonic() - begun) for one in mute]
    times = ", ".join(f"{at:.2f} s" for _, at in closed)
    check(f"a connection that sends nothing is closed after two seconds: {times}", all(octets == b"" and 1.5 < at < 8 for octets, at in closed))
    time.sleep(max(0, begun + 4 - time.monotonic()))
    check("one that has sent an octet is open after four", not select.select(begins, [], [], 0)[0])
    [one.sendall(f"ET /healthz HTTP/1.1\r\nHost: 127.0.0.1:{port}\r\n\r\n".encode()) for one in begins]
    check("and is answered", all(one.recv(100).startswith(b"HTTP/1.1 200 ") for one in begins))
    first = kept.sock
    kept.request("GET", "/healthz", headers={"Host": f"127.0.0.1:{port}"})
    check("one that was answered is answered again after four", kept.getresponse().status == 200 and kept.sock is first)
    [one.close() for one in (*mute, *begins, kept)]


def crowd(port):
    """With 200 pages that are open, as a browser keeps them, and 200 silent connections others are answered within a second."""
    quiet, opened = [], 0
    pages = [http.client.HTTPConnection("127.0.0.1", port, timeout=15) for _ in range(200)]
    wrong, ended = [], threading.Event()

    def look():
        while not ended.is_set():
            for page in pages:
                page.request("GET", "/status.json", headers={"Host": f"127.0.0.1:{port}"})
            for page in pages:
                answer = page.getresponse()
                body = answer.read()
                if answer.status != 200 or not body:
                    wrong.append(answer.status)
            ended.wait(1)
    looking = threading.Thread(target=look)
    looking.start()
    times = []
    for _ in range(10):
        # the console closes them after two seconds
        if time.monotonic() - opened > 1.5:
            [one.close() for one in quiet]
            quiet, opened = [socket.create_connection(("127.0.0.1", port)) for _ in range(200)], time.monotonic()
        begun = time.monotonic()
        if ask(port, "/healthz")[0] != 200:
            wrong.append("/healthz")
        times.append(time.monotonic() - begun)
        time.sleep(0.3)
    times.sort()
    ended.set()
    looking.join()
    check(f"200 pages and 200 silent connections: all answered {wrong[:3]}", not wrong)
    # a busy machine may hold up one or two
    check(f"200 pages and 200 silent connections: /healthz in {times[7]:.2f} s, at most {times[9]:.2f} s", times[7] < 1 and times[9] < 5)
    [one.close() for one in pages + quiet]
    more = [socket.create_connection(("127.0.0.1", port)) for _ in range(600)]
    answered = []
    took = fastest(3, lambda: answered.append(ask(port, "/healthz")[0]))
    check(f"600 silent connections: /healthz in {took:.2f} s", answered == [200] * 3 and took < 1)
    [one.close() for one in more]


def memory_of(process):
    with open(f"/proc/{process.pid}/status", encoding="utf-8") as lines:
        return int(re.search(r"VmRSS:\s+(\d+) kB", lines.read()).group(1))


def timed(port, target):
    """The shortest of five times, in milliseconds, and the body; the station is asked anew each time. On a busy machine the
    simulated station may take too long now and then."""
    times = []
    for _ in range(20):
        time.sleep(0.6)
        begun = time.monotonic()
        status, _, body = ask(port, target)
        if status == 200:
            times.append(1000 * (time.monotonic() - begun))
        if len(times) == 5:
            break
    check(f"{target}: 200, five times", len(times) == 5)
    return min(times, default=float("inf")), body


def thousand():
    station = start_station("--transactions", "1000")
    console, port = start_console()
    time.sleep(1)
    idle = memory_of(console)
    for target in ("/", "/status.json", "/metrics"):
        took, body = timed(port, target)
        if target == "/status.json":
            check("a thousand transactions", len(json.loads(body)["transactions"]) == 1000)
        check(f"{target}: {len(body)} octets in {took:.0f} ms, at most 150", took <= 150)
    more = memory_of(console) - idle
    check(f"memory: {idle} kB idle, {more} kB more with a thousand transactions, at most 5,000", more <= 5000)
    stop(station)
    stop(console)


def counted():
    """A station that counts: its numbers come last, with their labels."""
    station = start_station("--transactions", "1", "--pace", "0", "--counters")
    console, port = start_console()
    check("a station that counts", wait_for(lambda: ask(port, "/healthz")[0] == 200))
    document, text = json.loads(ask(port, "/status.json")[2]), ask(port, "/metrics")[2].decode()
    check("/status.json: what is counted", [len(document[name]) for name in ("ended", "delivered", "stores")] == [2, 2, 1]
          and document["transactions"][0]["missing"] == 100_000 and document["remotes"][1]["silence"] == 90_000)
    check("/metrics: what is counted", all(line in text for line in (
        '# TYPE cfdp_ended_transactions_total counter\ncfdp_ended_transactions_total{role="sender",class="2",condition="0"} 5\n',
        '\ncfdp_ended_transactions_total{role="receiver",class="1",condition="10"} 2\n',
        '\ncfdp_delivered_files_total{role="sender"} 5\n', '\ncfdp_delivered_bytes_total{role="sender"} 700\n',
        '# TYPE cfdp_missing_bytes gauge\ncfdp_missing_bytes{user="ops",lane="0"} 100000\n#',
        '# TYPE cfdp_remote_silence_milliseconds gauge\ncfdp_remote_silence_milliseconds{remote="7"} 90000\n#')))
    check("/metrics: they come last", text.endswith("\ncfdp_last_store_microseconds 1500\n"))
    stop(console)
    stop(station)
    os.unlink(control)


def pieces():
    """Pieces of files push out no other events: the console keeps the last of both, and of a station asks for both."""
    event = lambda number, name: {"at": "2026-11-26T12:00:00.000Z", "number": number, "kind": "indication", "user": "ops", "source": 1, "seq": 1, "name": name}
    numbers = {"File-Segment-Recv": range(3, 1103), "Metadata-Recv": (1, 2), "EOF-Recv": (1103, 1104)}
    said = {"status": [{"kind": "entity", "id": 1, "version": "0.1", "started": "2026-11-26T12:00:00.000Z"}],
            "events": sorted((event(number, name) for name in numbers for number in numbers[name]), key=lambda one: one["number"])}
    path = os.path.join(folder.name, "said")
    with open(path, "w", encoding="utf-8") as file:
        json.dump(said, file)
    station = start_station("--say", path)
    console, port = start_console()
    wanted = [1, 2, *range(1103 - 1024, 1105)]
    found = lambda last="": [int(one.rsplit("-", 1)[1]) for one in event_ids(port, *([f"2026-11-26T12:00:00.000Z-{last}"] if last else []))]
    check("pieces and others, each in its order", wait_for(lambda: found() == wanted, 120))
    check("those behind a piece, and behind another one", found("1100") == [1101, 1102, 1103, 1104] and found("2") == wanted[2:] and found("1103") == [1104])
    stop(console)
    stop(station)
    os.unlink(control)


def usage():
    for words, status, text in (((), 2, b"usage"), (("--control", control, "--token-file", "x"), 2, b"usage"),
                                (("--help",), 0, b"Usage: cfdp_web"), (("--version",), 0, b"cfdp_web 0.1\n"),
                                (("--control", control, "--listen", "256.0.0.1:1"), 1, b"bind fault"),
                                (("--control", control, "--listen", "127.0.0.1:0", "--commands", "--token-file", "/nowhere"), 1, b"token")):
        ended = subprocess.run([web, *words], capture_output=True, timeout=60)
        check(f"{' '.join(words) or 'no words'}: {status}", ended.returncode == status and text in ended.stdout + ended.stderr)


def main():
    usage()
    counted()
    pieces()
    console, port = start_console()
    check("no station: 503", ask(port, "/status.json")[0] == 503 and ask(port, "/healthz")[0] == 503)
    check("no station: /metrics says so", ask(port, "/metrics")[2].endswith(b"\ncfdp_up 0\n"))
    check("no station: the page", ask(port, "/")[0] == 200)
    station = start_station("--transactions", "4", "--odd", "--reading", "a,b,c", "--parked", "2", "--note", "--storing", "2",
                            "--recorded", "7,2,1")
    check("the station comes", wait_for(lambda: ask(port, "/healthz")[0] == 200))
    routes(port)
    refusals(port)
    many(port)
    silent(port)
    crowd(port)
    stopped(port, station)
    old = event_ids(port)
    stop(station)
    check("the station goes", wait_for(lambda: ask(port, "/healthz")[0] == 503))
    station = start_station("--transactions", "4")
    check("the station comes back", wait_for(lambda: ask(port, "/status.json")[0] == 200))
    restarted(port, old)
    slow(port)
    stop(console)
    token_file = os.path.join(folder.name, "token")
    with open(token_file, "w", encoding="utf-8") as file:
        file.write(TOKEN + "\n")
    console, port = start_console("--commands", "--token-file", token_file)
    commands(port)
    stop(console)
    names()
    token_files()
    console, port = start_console("--commands")
    console.stdout.readline()
    made = console.stdout.readline().decode().split()[-1]
    check("a new token is printed", len(made) == 32 and
          ask(port, "/command", method="POST", body=b"hold 5", more=[("X-Console-Token", made)])[0] == 200)
    stop(console)
    stop(station)
    thousand()


try:
    main()
finally:
    for process in list(started):
        stop(process)
print(f"web: {len(bad)} failed")
sys.exit(1 if bad else 0)
