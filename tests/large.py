#!/usr/bin/env python3
"""The largest configuration through the programs: 16 users with 32 sending lanes each, 128 remote entities with 8 receiving lanes each,
entity IDs and numbers of eight octets.

usage: tests/large.py SERVER CTL [PUT]

Each case has its own servers on loopback, in its own folder, and ends within three minutes.
"""
import os
import pathlib
import random
import subprocess
import sys

from support import Relay, Skipped, Station, case, free_port, linked, run_cases, until, want

SERVER, CTL = (os.path.abspath(path) for path in sys.argv[1:3])
PUT = os.path.abspath(sys.argv[3]) if len(sys.argv) > 3 else None
USERS, LANES, REMOTES = 16, 32, 128
# The greatest ID, and below it those of the other entities.
GREATEST = 2**63 - 1
NAMES = [f"user{number:x}" + "x" * 27 for number in range(USERS)]
SECONDS = 180


def id_of(place):
    return GREATEST - place


def configuration(own, peer_port, first=1):
    """The text of an entity's configuration, by its place among all 129. The entity at the other place, 0 or 1, is at a port; nobody is at
    the addresses of the others. Each user has eight of them."""
    others = [place for place in range(REMOTES + 1) if place != own]
    parts = [f"""[entity]
id = {id_of(own)}
id_octets = 8
seq_octets = 8
first = {first}
put_lanes = {LANES}
recv_lanes = 8
capacity = 1024
segment = 1400
"""]
    parts += [f'[[user]]\nname = "{name}"\n' for name in NAMES]
    for count, place in enumerate(others):
        port = peer_port if place < 2 else 9
        parts.append(f"""[[remote]]
id = {id_of(place)}
address = "127.0.0.1:{port}"
user = "{NAMES[count // 8]}"
ack_ms = 3000
nak_ms = 1000
check_ms = 3000
inactivity_ms = 60000
ack_limit = 255
nak_limit = 255
check_limit = 255
send = {{ positive_ack_limit = "cancel", filestore_rejection = "cancel", inactivity = "cancel", check_limit = "cancel" }}
recv2 = {{ nak_limit = "cancel", inactivity = "cancel", positive_ack_limit = "cancel", checksum_failure = "cancel" }}
checksum = "{'null' if place % 2 else 'modular'}"
""")
    return "".join(parts)


def stations(workers=16):
    """Two of the entities, over a link that loses nothing. One worker takes datagrams in the order in which they come."""

    def start(place, port, peer):
        options = ("sending.rate = 2000000", f"sending.numbers = 'numbers{place}'", f"log.file = 'log{place}'")
        return Station(SERVER, place + 1, port, 0, 0, options, text=configuration(place, peer), workers=workers)

    return linked(Relay(), start)


def write(name, size):
    octets = random.Random(name).randbytes(size)
    pathlib.Path(name).write_bytes(octets)
    return octets


@case
def a_file_of_each_user_both_ways():
    """Each user sends a file to the other station, in either class. A status has all users and entities, as lines and as tables; IDs above
    2^53 are there as text too."""
    with stations() as (one, other, _):
        files = {}
        for place, (here, there) in enumerate(((one, other), (other, one))):
            client = here.client()
            for number, name in enumerate(NAMES):
                file = f"from{place}-{number}"
                files[file] = write(file, 3_000 + number)
                service = 1 if number % 4 == 3 else 2
                want(client.ask(f"send {name} {service} {id_of(1 - place)} {file} {file}")[0].split()[0], "queued")
            client.close()
        for place, there in ((0, other), (1, one)):
            wanted = {name for name in files if name.startswith(f"from{place}-")}
            until(lambda: wanted <= {path.name for path in there.received().iterdir()}, f"all files of station {place + 1}", SECONDS)
            want([name for name in wanted if (there.received() / name).read_bytes() != files[name]], [])
        for place, here in ((0, one), (1, other)):
            client = here.client()
            status = client.status()
            want((status[0]["id"], status[0]["id_text"], status[0]["workers"]), (id_of(place), str(id_of(place)), 16))
            want([line["name"] for line in status if line["kind"] == "user"], NAMES)
            remotes = [line for line in status if line["kind"] == "remote"]
            want([int(line["id_text"]) for line in remotes], [id_of(other) for other in range(REMOTES + 1) if other != place])
            sent = {(line["user"], int(line["seq_text"]) if "seq_text" in line else line["seq"])
                    for line in status if line["kind"] == "transaction" and line["role"] == "sender"}
            # numbers say whose they are: each user's number is the remainder by the number of users
            want(sorted(NAMES.index(user) for user, _ in sent), list(range(USERS)))
            want([(user, seq) for user, seq in sent if NAMES[seq % USERS] != user], [])
            client.close()
            shown = here.ctl(CTL, "--width", "200", "status")
            want((shown.returncode, shown.stderr, all(str(id_of(other)) in shown.stdout for other in range(REMOTES + 1))), (0, "", True))


@case
def all_lanes_of_a_user_at_once():
    """A user's 32 lanes send at a time, all to one of the receiver's lanes: all files arrive. Puts keep no order, so of several workers
    one could hand in a later number first, and the lane would refuse the lower one for good."""
    with stations(workers=1) as (one, other, _):
        client = one.client()
        files = {f"file{number}": write(f"file{number}", 2_000) for number in range(LANES)}
        want(client.ask(f"hold {id_of(1)}"), ["ok"])
        for lane, name in enumerate(files):
            want(client.ask(f"put {NAMES[5]} {lane} 2 {id_of(1)} {name} {name}")[0], "ok")
        want(client.ask(f"put {NAMES[5]} {LANES} 2 {id_of(1)} {name} {name}")[0], "bad command")
        states = [line["state"] for line in client.status() if line["kind"] == "transaction"]
        want(states, ["active"] * LANES)
        want(client.ask(f"release {id_of(1)}"), ["ok"])
        until(lambda: files.keys() <= {path.name for path in other.received().iterdir()}, "all files", SECONDS)
        want([name for name in files if (other.received() / name).read_bytes() != files[name]], [])


@case
def checks_and_starts():
    """The text is read; one user, lane or entity more is not."""
    text = configuration(0, 9)
    more = "".join(text[text.index("[[remote]]"):].partition("[[remote]]\n")[2].partition("[[remote]]")[0]
                   .replace(f"id = {id_of(1)}", f"id = {id_of(500)}"))
    for name, changed, told in (
            ("good", text, (0, "ok\n", "")),
            ("users", text.replace("[[remote]]", '[[user]]\nname = "more"\n[[remote]]', 1), (1, "", "4")),
            ("lanes", text.replace(f"put_lanes = {LANES}", f"put_lanes = {LANES + 1}"), (1, "", "4")),
            ("remotes", text + "[[remote]]\n" + more, (1, "", "4")),
            ("id", text.replace(f"id = {id_of(0)}", f"id = {GREATEST + 1}", 1), (1, "", "1")),
            ("shared", text.replace(f'user = "{NAMES[1]}"', f'user = "{NAMES[0]}"', 1), (1, "", "9"))):
        pathlib.Path(name).write_text(changed)
        done = subprocess.run([SERVER, "--check", name], capture_output=True, text=True, timeout=60, check=False)
        fault = done.stderr.splitlines()[0].split()[-1] if done.returncode else ""
        if name == "good":
            # 512 sending lanes don't divide eight receiving ones: a note says so of each entity
            want((done.returncode, done.stdout, done.stderr.count(" sending lanes don't divide ")), (0, "ok\n", REMOTES))
        else:
            want((name, done.returncode, done.stdout, fault), (name, *told))


@case
def a_put_alone():
    """The put sends a file as the last of the users, with a number above 2^53."""
    if PUT is None:
        raise Skipped("no put is given")
    relay = Relay()
    ports = [free_port(), free_port()]
    other = Station(SERVER, 2, ports[1], 0, 0, ("store.layout = 'tree'",), text=configuration(1, relay.ports[1]), workers=2)
    relay.join(*ports)
    try:
        other.client().close()
        octets = write("image", 50_000)
        pathlib.Path("config").write_text(configuration(0, relay.ports[0]))
        words = [PUT, "--config", "config", "--bind", f"127.0.0.1:{ports[0]}", "--user", NAMES[15], "--remote", str(id_of(1)),
                 "--class", "2", "--first", str(2**45), "image", "deep/image"]
        done = subprocess.run(words, capture_output=True, text=True, timeout=180, check=False)
        want((done.returncode, done.stderr), (0, ""))
        want((other.received() / "deep" / "image").read_bytes() == octets, True)
    finally:
        other.close()
        relay.close()


run_cases("large configurations")
