"""Measures a server with a control socket: how long a status of 1,024 lanes takes, and how much a follower of all events slows a
server under load.

usage: control.py SERVER
"""

import contextlib
import json
import os
import pathlib
import socket
import subprocess
import sys
import tempfile
import threading
import time

import bars
import programs

USERS, PUT_LANES, REMOTES, RECEIVE_LANES = 16, 32, 64, 8
LANES = USERS * PUT_LANES + REMOTES * RECEIVE_LANES
STATUS_BAR = 0.010
FOLLOWER_BAR = 0.1
LOADS = 3


def config(peer):
    """A configuration with 1,024 lanes, each user with four remote entities."""
    text = f"""[entity]
id = 999
id_octets = 2
seq_octets = 4
first = 1
put_lanes = {PUT_LANES}
recv_lanes = {RECEIVE_LANES}
capacity = 1024
segment = 1024
"""
    text += "".join(f'[[user]]\nname = "u{user}"\n' for user in range(USERS))
    for remote in range(REMOTES):
        text += f"""[[remote]]
id = {remote + 1}
address = "127.0.0.1:{peer}"
user = "u{remote // 4}"
ack_ms = 60000
nak_ms = 60000
check_ms = 60000
inactivity_ms = 3600000
ack_limit = 9
nak_limit = 9
check_limit = 9
"""
    return text


class Client:
    """A client of the control socket."""

    def __init__(self):
        self.stream = socket.socket(socket.AF_UNIX)
        self.stream.settimeout(60)
        self.stream.connect("control")
        self.held = b""

    def ask(self, command):
        self.stream.sendall(command + b"\n")
        while not self.held.endswith(b"\n.\n"):
            self.held += self.stream.recv(1 << 20)
        answer, self.held = self.held, b""
        return answer.decode().splitlines()[:-1]


@contextlib.contextmanager
def serving(program, configured, port, *more, workers=4):
    station = programs.Station(program, configured, port, more, workers, env=dict(os.environ, MALLOC_ARENA_MAX="1"))
    station.client.close()
    process = station.process
    try:
        yield process
        Client().ask(b"quit")
        process.wait(20)
    finally:
        if process.poll() is None:
            process.kill()
        process.wait()


def pdu(first, source, sequence, field):
    header = bytes([first]) + len(field).to_bytes(2, "big") + bytes([0x13])
    return header + source.to_bytes(2, "big") + sequence.to_bytes(4, "big") + (999).to_bytes(2, "big") + field


def status(program):
    """The seconds of a status in which each lane has a transaction under way, the best and the middle of many."""
    port, peer = programs.free_ports(2)
    pathlib.Path("wide").write_text(config(peer))
    pathlib.Path("file").write_bytes(bytes(100_000))
    with serving(program, "wide", port, "sending.rate = 1000"):
        client = Client()
        for user in range(USERS):
            for lane in range(PUT_LANES):
                if client.ask(b"put u%d %d 2 1 file to" % (user, lane))[0] != "ok":
                    sys.exit("a put was refused")
        with socket.socket(socket.AF_INET, socket.SOCK_DGRAM) as way:
            for remote in range(1, REMOTES + 1):
                for sequence in range(RECEIVE_LANES, 2 * RECEIVE_LANES):
                    metadata = bytes([7, 0]) + (9).to_bytes(4, "big") + b"\x06a name\x06a name"
                    way.sendto(pdu(0x20, remote, sequence, metadata), ("127.0.0.1", port))
                    time.sleep(0.0005)
        programs.wait_for(lambda: sum('"kind":"transaction"' in line for line in client.ask(b"status")) == LANES, 30)
        taken = []
        for _ in range(50):
            begun = time.perf_counter()
            client.ask(b"status")
            taken.append(time.perf_counter() - begun)
            time.sleep(0.02)
    return min(taken), sorted(taken)[len(taken) // 2]


def load(program, follows):
    """How many datagrams a second a server takes, with a client that follows all events or with none."""
    port, peer = programs.free_ports(2)
    pathlib.Path("wide").write_text(config(peer))
    stop = threading.Event()
    with serving(program, "wide", port, workers=2):
        client, follower = Client(), Client()
        if follows:
            follower.ask(b"follow")

            def read():
                with contextlib.suppress(OSError):
                    while follower.stream.recv(1 << 20):
                        pass

            threading.Thread(target=read, daemon=True).start()
        senders = [subprocess.Popen([sys.executable, __file__, "send", str(port), str(place)]) for place in range(2)]
        time.sleep(0.5)

        def taken():
            lines = client.ask(b"status")
            return sum(json.loads(line)["events"] for line in lines if '"kind":"transaction"' in line)

        begun, before = time.perf_counter(), taken()
        time.sleep(2)
        rate = (taken() - before) / (time.perf_counter() - begun)
        stop.set()
        for sender in senders:
            sender.kill()
            sender.wait()
    return rate


def send(port, place):
    """Sends File Data PDUs of four transactions in class 1, as fast as it may."""
    with socket.socket(socket.AF_INET, socket.SOCK_DGRAM) as way:
        for source in range(1, 5):
            metadata = bytes([7, 0]) + (16_000_000).to_bytes(4, "big") + b"\x06a name\x06a name"
            way.sendto(pdu(0x24, 4 * place + source, 8, metadata), ("127.0.0.1", port))
        time.sleep(0.2)
        parts = [[pdu(0x34, 4 * place + source, 8, (1_000 * at).to_bytes(4, "big") + bytes(1_000)) for at in range(60_000 // 4)] for source in range(1, 5)]
        for at in range(len(parts[0])):
            for part in parts:
                way.sendto(part[at], ("127.0.0.1", port))
        time.sleep(60)


def main():
    if sys.argv[1] == "send":
        send(int(sys.argv[2]), int(sys.argv[3]))
        return
    server = os.path.realpath(sys.argv[1])
    with tempfile.TemporaryDirectory() as folder:
        os.chdir(folder)
        best, middle = status(server)
        print(f"a status of {LANES:,} lanes: {best * 1000:.1f} ms at best, {middle * 1000:.1f} in the middle", flush=True)
        bars.show_bar(f"{best * 1000:.1f} ms, at most {STATUS_BAR * 1000:.0f}", best <= STATUS_BAR)
        without = max(load(server, False) for _ in range(LOADS))
        following = max(load(server, True) for _ in range(LOADS))
        slower = 1 - following / without
        print(f"a server under load: {without:,.0f} datagrams a second, {following:,.0f} with a follower of all events", flush=True)
        bars.show_bar(f"{slower * 100:.0f} % slower, at most {FOLLOWER_BAR * 100:.0f}", slower <= FOLLOWER_BAR)
        os.chdir("/")
    bars.end()


if __name__ == "__main__":
    main()
