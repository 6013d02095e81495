#!/usr/bin/env python3
"""The examples that a station is installed from do as they stand, but for the places of their files and the address: stations start,
the unit's commands start a server and end it, each folder that they name is one that systemd makes, and the log goes on after it was rotated.

usage: tests/units.py SERVER CTL

Where systemd-analyze is here, it reads the units too.
"""
import contextlib
import json
import os
import pathlib
import re
import shlex
import shutil
import subprocess
import sys
import time

from support import Client, Skipped, Wrong, case, close_run, run_cases, station, until, want

SERVER, CTL = (os.path.abspath(path) for path in sys.argv[1:3])
TOP = pathlib.Path(__file__).resolve().parent.parent
EXAMPLES = TOP / "examples"
# Where systemd makes the folders of each setting.
MADE = {"StateDirectory": "/var/lib", "RuntimeDirectory": "/run", "LogsDirectory": "/var/log"}


def settings(unit):
    """The settings of a unit, each with its last value; a backslash at a line's end joins the next one."""
    text = re.sub(r"\\\n\s*", "", (EXAMPLES / unit).read_text())
    return dict(line.split("=", 1) for line in text.splitlines() if "=" in line and not line.startswith("#"))


def folders(unit):
    return [f"{MADE[name]}/{folder}" for name in MADE for folder in settings(unit).get(name, "").split()]


def placed(words):
    """A command of the unit, with its files below this folder, and its programs where they are."""
    places = {"/usr/local/bin/cfdp_server": SERVER, "/usr/local/bin/cfdp_ctl": CTL}
    return [places.get(word, os.getcwd() + word if word.startswith("/") else word) for word in shlex.split(words)]


def connected(path, run):
    """A client of a socket, which may have its path before it lets anybody in."""
    found = []

    def comes_in():
        with contextlib.suppress(OSError):
            found.append(Client(path))
        return found or run.poll() is not None

    until(comes_in, "the control socket")
    return found[0] if found else Client(path)


@case
def the_unit_of_the_server():
    """Its folders, its configuration and its commands are enough for a station; then the log is rotated as logrotate does it."""
    unit = settings("cfdp_server.service")
    for folder in folders("cfdp_server.service"):
        os.makedirs(os.getcwd() + folder, mode=0o700)
    os.makedirs("etc/cfdp")
    text = subprocess.run([TOP / "tools" / "service-file.py"], capture_output=True, text=True, timeout=60, check=True).stdout
    known = folders("cfdp_server.service")
    for path in re.findall(r'(?m)^\w+ = "(/[^"]*)"', text):
        if path not in known and str(pathlib.Path(path).parent) not in known:
            raise Wrong(f"nobody makes the folder of {path}")
    given = re.sub(r'(?m)^(\w+ = ")(/)', rf"\1{os.getcwd()}\2", text).replace('bind = "127.0.0.1:4562"', 'bind = "127.0.0.1:0"')
    file, words = pathlib.Path("etc/cfdp/station.toml"), placed(unit["ExecStart"])
    file.write_text(given)
    checked = subprocess.run([SERVER, "--check", file], capture_output=True, text=True, timeout=60, check=False)
    want((checked.returncode, checked.stdout, checked.stderr), (0, "ok\n", ""))
    file.write_text(given.replace("\nid_octets = 1\n", "\nid_octets = 9\n"))
    wrong = subprocess.run(words, capture_output=True, text=True, timeout=60, check=False)
    line = given.splitlines().index("id_octets = 1") + 1
    want((wrong.returncode, f"line {line}" in wrong.stderr, "id_octets" in wrong.stderr), (1, True, True))
    file.write_text(given)
    run = subprocess.Popen(words, stdin=subprocess.DEVNULL, stdout=subprocess.PIPE, stderr=subprocess.PIPE, cwd="var/lib/cfdp")
    try:
        client = connected("run/cfdp/control", run)
        log = pathlib.Path("var/log/cfdp/events")
        until(lambda: log.exists() and '"start"' in log.read_text(), "the first event")
        os.rename(log, "var/log/cfdp/events.1")
        until(log.exists, "the new log")
        want(client.ask("hold 1"), ["ok"])
        until(lambda: log.read_text().endswith("}\n"), "an event in the new log")
        first = pathlib.Path("var/log/cfdp/events.1").read_text()
        until(lambda: log.read_text().count("\n") == 2, "the hold, and the command for it")
        want(('"hold"' in log.read_text(), '"command"' in log.read_text(), '"start"' in first), (True, True, True))
        ended = subprocess.run(placed(unit["ExecStop"]), capture_output=True, text=True, timeout=60, check=False)
        want((ended.returncode, ended.stdout, run.wait(60), run.stderr.read()), (0, "ok\n", 0, b""))
    finally:
        close_run(run)


@case
def the_unit_of_a_hot_folder():
    """Its command sends what is put into the folder that it has systemd make."""
    unit = {name: told.replace("%i", "2") for name, told in settings("cfdp_watch@.service").items()}
    folder = pathlib.Path(os.getcwd() + f"/var/lib/{unit['StateDirectory']}")
    folder.mkdir(parents=True)
    with station(SERVER, options=(), users=("alice",)) as (one, _):
        words = [one.path if word.endswith("/run/cfdp/control") else word for word in placed(unit["ExecStart"])]
        want((str(folder) in words, words[words.index("--to") + 1]), (True, "2"))
        run = subprocess.Popen(words, stdin=subprocess.DEVNULL, stdout=subprocess.PIPE, stderr=subprocess.PIPE)
        try:
            pathlib.Path("image.part").write_bytes(b"octets")
            os.rename("image.part", folder / "image")
            client = one.client()
            sent = lambda: [line for line in client.status() if line["kind"] == "transaction" and line.get("file", "").endswith("image")]
            until(lambda: sent() or run.poll() is not None, "the file")
            want((run.poll(), [(line["role"], line["peer"]) for line in sent()]), (None, [("sender", 2)]))
        finally:
            close_run(run)


@case
def the_unit_of_a_plan():
    """Its command opens a link by the plan that it names."""
    unit = settings("cfdp_windows.service")
    plan = pathlib.Path(os.getcwd() + "/etc/cfdp/plan")
    plan.parent.mkdir(parents=True)
    moment = lambda seconds: time.strftime("%Y-%m-%dT%H:%M:%SZ", time.gmtime(time.time() + seconds))
    plan.write_text(f"{moment(-60)} {moment(600)} 2\n")
    with station(SERVER, options=("station.hold = true",), users=("alice",)) as (one, _):
        words = [one.path if word.endswith("/run/cfdp/control") else word for word in placed(unit["ExecStart"])]
        want(words[-2:], ["windows", str(plan)])
        run = subprocess.Popen(words, stdin=subprocess.DEVNULL, stdout=subprocess.PIPE, stderr=subprocess.PIPE)
        try:
            client = one.client()
            links = lambda: [line for line in client.status() if line["kind"] == "remote" and "open_until" in line]
            until(lambda: links() or run.poll() is not None, "the window")
            want((run.poll(), [line["held"] for line in links()]), (None, [False]))
        finally:
            close_run(run)


@case
def units_are_closed():
    """Each unit is closed at least as far as the server's."""
    is_closing = lambda name: name.startswith(("Protect", "Private", "Restrict", "NoNew", "Capability", "SystemCall", "LimitAS", "UMask"))
    server = {name: told for name, told in settings("cfdp_server.service").items() if is_closing(name)}
    want(len(server) > 8, True)
    for unit in ("cfdp_web.service", "cfdp_watch@.service", "cfdp_windows.service"):
        own = settings(unit)
        families = set(own["RestrictAddressFamilies"].split()) - set(server["RestrictAddressFamilies"].split())
        lacking = {name for name, told in server.items() if own.get(name) != told and name not in ("RestrictAddressFamilies", "LimitAS")}
        want((unit, families, lacking, "LimitAS" in own), (unit, set(), set(), True))


@case
def what_is_rotated():
    """It is the log that the unit names, by the unit's user, and it is moved away, not copied."""
    text = (EXAMPLES / "cfdp_server.logrotate").read_text()
    unit = settings("cfdp_server.service")
    made = subprocess.run([TOP / "tools" / "service-file.py"], capture_output=True, text=True, timeout=60, check=True).stdout
    log = re.search(r'(?m)^file = "(.*)"', made)[1]
    lines = [line.strip() for line in text.splitlines()]
    want((f"{log} {{" in lines, f"su {unit['User']} {unit['Group']}" in lines, "copytruncate" in lines), (True, True, False))


def installed():
    """The programs that are installed, by where the Makefile finds them, and by the lists of `install` and `install-web`."""
    makefile = (TOP / "Makefile").read_text()
    places = dict(re.findall(r"(?m)^(\w+) := (crates/\w+/out/\w+)$", makefile))
    lists = re.findall(r"(?m)^\tinstall -m 755 (.*) \$\(DESTDIR\)\$\(PREFIX\)/bin$", makefile)
    return {places[name] for line in lists for name in re.findall(r"\$\((\w+)\)", line)}


@case
def the_container():
    """It takes each installed program from where it is built, and nothing else comes along; a user of its own runs the server."""
    steps = [step.split(None, 1) for step in re.sub(r"\\\n\s*", "", (TOP / "Containerfile").read_text()).splitlines() if step and step[0] != "#"]
    copied = [words.split() for name, words in steps if name == "COPY"]
    want(({path for words in copied for path in words[:-1]}, {words[-1] for words in copied}), (installed(), {"/usr/local/bin/"}))
    passed = [line for line in (TOP / ".dockerignore").read_text().splitlines() if not line.startswith("#")]
    want((passed[0], {line for line in passed[1:]}), ("*", {"!" + path for path in installed()}))
    last = dict(steps)
    want((last["USER"], last["VOLUME"], json.loads(last["ENTRYPOINT"])), ("cfdp", "/var/lib/cfdp", ["cfdp_server", "/etc/cfdp/station.toml"]))
    guide = (TOP / "docs" / "operating.md").read_text()
    want([word for word in (last["ENV"].split("=")[0], last["ENV"].split("=")[1], last["EXPOSE"], last["VOLUME"]) if word not in guide], [])


@case
def stations_to_copy():
    """Each station of the examples passes the check without a remark, and starts where it lies."""
    for example in sorted(EXAMPLES.rglob("*.toml")):
        text = example.read_text()
        if "[station]" not in text:
            continue
        folder = pathlib.Path(example.stem)
        folder.mkdir()
        file = folder / "station.toml"
        file.write_text(text)
        checked = subprocess.run([SERVER, "--check", file], capture_output=True, text=True, timeout=60, check=False)
        want((example.name, checked.returncode, checked.stdout, checked.stderr), (example.name, 0, "ok\n", ""))
        file.write_text(re.sub(r'(?m)^bind = ".*"', 'bind = "127.0.0.1:0"', text))
        run = subprocess.Popen([SERVER, file], stdin=subprocess.DEVNULL, stdout=subprocess.PIPE, stderr=subprocess.PIPE)
        try:
            socket = re.search(r'(?m)^socket = "(.*)"', text)[1]
            want((connected(str(folder / socket), run).ask("quit"), run.wait(60), run.stderr.read()), (["ok"], 0, b""))
        finally:
            close_run(run)


@case
def units_that_systemd_takes():
    verifier = shutil.which("systemd-analyze")
    if verifier is None:
        raise Skipped("systemd-analyze is not here")
    os.makedirs("bin")
    for name in ("cfdp_server", "cfdp_ctl", "cfdp_web"):
        pathlib.Path("bin", name).touch(0o755)
    units = []
    for unit in sorted(EXAMPLES.glob("*.service")):
        units.append(os.path.abspath(unit.name))
        pathlib.Path(unit.name).write_text(unit.read_text().replace("/usr/local/bin", os.path.abspath("bin")))
    done = subprocess.run([verifier, "verify", "--man=no", *units], capture_output=True, text=True, timeout=60, check=False)
    want((done.returncode, done.stdout, done.stderr), (0, "", ""))


run_cases("units")
