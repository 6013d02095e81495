#!/usr/bin/env python3
"""Where a server stores received files: names with folders, names that exist already, disks that fail for a while.

usage: tests/stores.py SERVER

Each case has its own server on loopback, in its own folder, and ends within three minutes.
"""
import json
import os
import pathlib
import resource
import sys
import time
from unittest import mock

from support import (
    Skipped, case, configuration, end_of_file, file_data, in_own_mounts, library, metadata, run_cases, small_disk, station, until, want,
)

SERVER = os.path.abspath(sys.argv[1])
BAD = [b"..", b".", b"../x", b"a/../x", b"a/..", b"./a", b"a/.", b"a/./b", b"a//b", b"a/", b"/", b"//", b"a\0b", b"a/\0", b"\xff",
       b"a/\xff", b"/..", b"/../x", b"//../../x", b"..//x"]
BAD += [b"../" * n + b"x" for n in range(2, 40)] + [b"a/" * n + b".." for n in range(2, 40)]
BAD += [b"/" * n + b".." for n in range(3, 10)]


class Receiver:
    """A station that receives files, and what its events say of each."""

    def __init__(self, one, peer):
        self.one = one
        self.peer = peer
        self.client = one.client()
        self.seq = 0
        want(self.client.ask("follow"), ["ok"])

    def send(self, name, octets=b"abc", source=2):
        """Sends a file; gives the number of its transaction."""
        self.seq += 1
        for datagram in (metadata(self.seq, len(octets), name, source), file_data(self.seq, 0, octets, source),
                         end_of_file(self.seq, octets, source)):
            self.peer.sendto(datagram, ("127.0.0.1", self.one.port))
        return self.seq

    def stored(self, seq):
        """The store's answer for a transaction, and where it kept the file."""
        event = self.client.wait_event(lambda event: event["kind"] == "stored" and event["seq"] == seq, f"the store's answer {seq}")
        return event["status"], event.get("as")

    def receives(self, name, octets=b"abc", source=2):
        return self.stored(self.send(name, octets, source))


def everything(folder):
    return sorted(str(path.relative_to(folder)) for path in folder.rglob("*"))


@case
def names_with_folders():
    """Slashes lead into folders; no name of a hundred bad ones leads anywhere."""
    with station(SERVER, options=("store.layout = 'tree'",)) as (one, peer):
        receiver = Receiver(one, peer)
        folder = one.received()
        want(receiver.receives(b"pass7/image.bin"), ("retained", "pass7/image.bin"))
        want(receiver.receives(b"//pass7/raw/x"), ("retained", "pass7/raw/x"))
        want(receiver.receives(b"plain"), ("retained", "plain"))
        want(everything(folder), ["pass7", "pass7/image.bin", "pass7/raw", "pass7/raw/x", "plain"])
        before = everything(pathlib.Path(one.home))
        want(len(BAD) > 100, True)
        for name in BAD:
            want((name, receiver.receives(name)), (name, ("rejected", None)))
        want(everything(pathlib.Path(one.home)), before)
        for name in (b"plain/x", b"pass7", b"pass7/raw"):
            want((name, receiver.receives(name)), (name, ("rejected", None)))
        os.symlink(os.path.abspath(one.home), folder / "link")
        want(receiver.receives(b"link/x"), ("rejected", None))
        want((everything(folder), (pathlib.Path(one.home) / "x").exists()),
             (["link", "pass7", "pass7/image.bin", "pass7/raw", "pass7/raw/x", "plain"], False))


@case
def names_without_folders():
    """Without `tree` a name with a slash is refused, and an existing file is replaced."""
    with station(SERVER) as (one, peer):
        receiver = Receiver(one, peer)
        want(receiver.receives(b"a/b"), ("rejected", None))
        want((receiver.receives(b"a"), receiver.receives(b"a", b"new")), (("retained", None), ("retained", None)))
        want((one.received() / "a").read_bytes(), b"new")


@case
def why_a_file_is_rejected():
    """The event and the status say why the store didn't keep a file."""
    with station(SERVER) as (one, peer):
        receiver = Receiver(one, peer)
        (one.received() / "d").mkdir()
        for name, why in ((b"a/b", "its name can't be that of a file here; a slash needs the layout tree"), (b"d", "a folder is in its place, or a file in that of its folder, or the system refuses it")):
            seq = receiver.send(name)
            event = receiver.client.wait_event(lambda event: event["kind"] == "stored" and event["seq"] == seq, f"the store's answer {seq}")
            want((name, event["status"], event["why"]), (name, "rejected", why))
            want([line.get("why") for line in receiver.client.status() if line["kind"] == "store"], [why])


@case
def parts_that_an_earlier_run_left():
    """They are left alone: a file gets a part with the next free name."""
    with station(SERVER) as (one, peer):
        for number in range(3):
            (one.received() / f".part-{number}").write_bytes(b"old")
        want(Receiver(one, peer).receives(b"a", b"new"), ("retained", None))
        want((one.received() / "a").read_bytes(), b"new")
        want([(one.received() / f".part-{number}").read_bytes() for number in range(3)], [b"old"] * 3)


@case
def names_that_are_there():
    """With `keep` an existing file is kept, and the next ones get numbers."""
    with station(SERVER, options=("store.layout = 'tree'", "store.existing = 'keep'")) as (one, peer):
        receiver = Receiver(one, peer)
        for place, octets in (("d/a", b"one"), ("d/a.1", b"two"), ("d/a.2", b"three")):
            want(receiver.receives(b"d/a", octets), ("retained", place))
            want((one.received() / place).read_bytes(), octets)


@case
def names_by_source():
    """With `by-source` each source has a folder, in which names mean what they mean without it."""
    alone = "store.layout = 'by-source'"
    for options, name, place in (((alone,), b"a", "2/a"), (("store.layout = ['tree', 'by-source']",), b"/d/a", "2/d/a"),
                                 ((alone, "store.existing = 'keep'"), b"k", "2/k")):
        with station(SERVER, options=options) as (one, peer):
            receiver = Receiver(one, peer)
            want(receiver.receives(name, b"one"), ("retained", place))
            want(receiver.receives(name, b"two"), ("retained", place + ".1" if "store.existing = 'keep'" in options else place))
            want((one.received() / place).read_bytes(), b"one" if "store.existing = 'keep'" in options else b"two")
            if name == b"a":
                before = everything(one.received())
                for bad in (b"x/y", b"/a", b"..", b".", b"../a"):
                    want((bad, receiver.receives(bad)), (bad, ("rejected", None)))
                want(everything(one.received()), before)


@case
def names_of_two_sources():
    """With `by-source` files of one name go into the folder of their own source, also where another source's file came in between."""
    text = configuration("127.0.0.1:9", ("alice",), id=1, remote=2, octets=4)
    text += text[text.index("[[remote]]"):].replace("id = 2\n", "id = 9\n", 1)
    with station(SERVER, options=("store.layout = 'by-source'",), text=text) as (one, peer):
        receiver = Receiver(one, peer)
        held = {}
        for source, octets in ((2, b"one"), (9, b"three"), (2, b"fifteen"), (9, b"nine")):
            want((source, receiver.receives(b"a", octets, source)), (source, ("retained", f"{source}/a")))
            held[f"{source}/a"] = octets
            want({name: (one.received() / name).read_bytes() for name in held}, held)
        want(everything(one.received()), ["2", "2/a", "9", "9/a"])


@case
def a_disk_that_is_full_for_a_while():
    """With `retry_s` a file for which the disk has no room is stored once there is some; its sender is answered once."""
    with station(SERVER, options=("store.retry_s = 30",)) as (one, peer):
        folder = one.received()
        with small_disk(folder, "size=64k"):
            receiver = Receiver(one, peer)
            (folder / "filler").write_bytes(bytes(60_000))
            seq = receiver.send(b"late", bytes(20_000))
            until(lambda: storing(receiver.client) == [(seq, "no space is left")], "what hinders the file")
            want([event for event in receiver.client.events if event["kind"] == "stored"], [])
            (folder / "filler").unlink()
            want(receiver.stored(seq), ("retained", None))
            want((folder / "late").read_bytes(), bytes(20_000))
            want(receiver.client.status()[0]["counters"]["failed_stores"], 0)


@case
def files_that_stay_too_large():
    """With `retry_s` files for which there is never room are tried on, and hold up no other: each is tried again by itself."""
    text = configuration("127.0.0.1:9", ("alice",), lanes=8, id=1, remote=2, octets=4, inactivity=300_000)
    remote = text[text.index("[[remote]]"):]
    text += "".join(remote.replace("id = 2\n", f"id = {number}\n", 1) for number in range(3, 7))
    with station(SERVER, options=("store.retry_s = 600",), text=text, workers=1) as (one, peer):
        folder = one.received()
        with small_disk(folder, "size=32k"):
            receiver = Receiver(one, peer)
            (folder / "filler").write_bytes(bytes(32_768))
            small = []
            # eight files of each of five sources, one for each lane
            for place in range(40):
                source = 2 + place // 8
                if place % 10 == 9:
                    small.append(receiver.send(b"small%d" % place, bytes(3_000), source))
                else:
                    receiver.send(b"large%d" % place, bytes(40_000), source)
                until(lambda waiting=place + 1: len(storing(receiver.client)) == waiting, "one more file that waits")
            (folder / "filler").unlink()
            begun = time.monotonic()
            want([receiver.stored(seq) for seq in small], [("retained", None)] * 4)
            # with one try each second for all of them, thirty tries of others come between these four
            want(time.monotonic() - begun < 20, True)


@case
def a_folder_that_goes_away():
    """With `retry_s` the folder may be missing for a while; after that time the store rejects the file, once. A bad name is
    refused at once, before a file that is still tried."""
    with station(SERVER, options=("store.retry_s = 12",)) as (one, peer):
        receiver = Receiver(one, peer)
        folder, aside = one.received(), pathlib.Path(one.home, "aside")
        os.rename(folder, aside)
        seq = receiver.send(b"a")
        until(lambda: storing(receiver.client) == [(seq, "the folder isn't there")], "what hinders the file")
        os.rename(aside, folder)
        want(receiver.stored(seq), ("retained", None))
        os.rename(folder, aside)
        begun = time.monotonic()
        seq = receiver.send(b"b")
        until(lambda: storing(receiver.client) == [(seq, "the folder isn't there")], "what hinders the next file")
        want(receiver.receives(b"../x"), ("rejected", None))
        want([event["seq"] for event in receiver.client.events if event["kind"] == "stored"], [seq - 1, seq + 1])
        want(receiver.stored(seq), ("rejected", None))
        want(time.monotonic() - begun > 11.5, True)
        counters = receiver.client.status()[0]["counters"]
        want((counters["stored"], counters["failed_stores"]), (1, 2))


def slow_disk(milliseconds):
    """What a server is started with, so that each flush takes so long."""
    return {**os.environ, "LD_PRELOAD": library("slow_disk"), "FLUSH_MS": str(milliseconds)}


def storing(client):
    """The numbers of the files that are being stored, and of those that couldn't be stored so far, with what hindered each."""
    return [(line["seq"], line.get("why")) for line in client.status() if line["kind"] == "storing"]


@case
def a_disk_whose_flushes_take_seconds():
    """Meanwhile commands are answered, and a file leaves: all before the first file's two flushes have ended. The files are stored one
    after the other."""
    with station(SERVER, around=slow_disk(4_000)) as (one, peer):
        receiver = Receiver(one, peer)
        client = receiver.client
        sent = time.monotonic()
        seqs = [receiver.send(name) for name in (b"a", b"b")]
        until(lambda: storing(client) == [(seqs[0], None)], "the first file at the store")
        times = []
        for _ in range(30):
            begun = time.monotonic()
            want(client.ask("status")[0].startswith("{"), True)
            times.append(time.monotonic() - begun)
        want((sorted(times)[15] < 0.25, max(times) < 3), (True, True))
        pathlib.Path("sent").write_bytes(b"sent")
        want(client.ask("put alice 0 1 2 sent sent")[0], "ok")
        heard = b""
        while b"sent" not in heard:
            heard = peer.recv(2_048)
        want(storing(client), [(seqs[0], None)])
        want([receiver.stored(seq) for seq in seqs], [("retained", None)] * 2)
        want((time.monotonic() - sent >= 16, everything(one.received()), storing(client)), (True, ["a", "b"], []))


@case
def an_end_while_a_file_is_being_stored():
    """The server waits for that file, and says that it was stored; the next one isn't stored."""
    with station(SERVER, options=("log.file = 'log'",), around=slow_disk(3_000)) as (one, peer):
        receiver = Receiver(one, peer)
        seq = receiver.send(b"a")
        until(lambda: storing(receiver.client) == [(seq, None)], "the file at the store")
        receiver.send(b"b")
        until(lambda: [line.get("state") for line in receiver.client.status()].count("storing") == 2, "the other file")
        want((receiver.client.ask("quit"), one.run.wait(60)), (["ok"], 0))
        events = [json.loads(line) for line in pathlib.Path("log").read_text().splitlines()]
        want([(event["seq"], event["status"]) for event in events if event["kind"] == "stored"], [(seq, "retained")])
        want((everything(one.received()), events[-1]["kind"]), (["a"], "end"))


@case
def an_end_while_the_disk_hangs():
    """After ten seconds the server leaves its socket and says its end in the log; nothing says that the file was stored. The process
    itself waits for the disk."""
    with station(SERVER, options=("log.file = 'log'",), around=slow_disk(600_000)) as (one, peer):
        receiver = Receiver(one, peer)
        seq = receiver.send(b"a")
        until(lambda: storing(receiver.client) == [(seq, None)], "the file at the store")
        begun = time.monotonic()
        want(receiver.client.ask("quit"), ["ok"])
        until(lambda: not os.path.exists(one.path), "the end of the socket", 60)
        want((time.monotonic() - begun > 9, one.run.poll()), (True, None))
        kinds = [json.loads(line)["kind"] for line in pathlib.Path("log").read_text().splitlines()]
        want(("stored" in kinds, kinds[-1]), (False, "end"))


@case
def what_cannot_pass_fails_at_once():
    """With `retry_s` a file in a folder's place, or a folder in a file's, costs no time; and a status says what hinders others."""
    with station(SERVER, options=("store.layout = 'tree'", "store.retry_s = 60")) as (one, peer):
        receiver = Receiver(one, peer)
        want(receiver.receives(b"a"), ("retained", "a"))
        want(receiver.receives(b"d/a"), ("retained", "d/a"))
        begun = time.monotonic()
        for name in (b"a/x", b"d", b"a/y/z", b"/".join([b"f"] * 10)):
            want((name, receiver.receives(name)), (name, ("rejected", None)))
        # well before the minute for which others are tried
        want(time.monotonic() - begun < 30, True)
        os.rename(one.received(), "aside")
        seqs = [receiver.send(name) for name in (b"p", b"q", b"r")]
        until(lambda: sorted(storing(receiver.client)) == [(seq, "the folder isn't there") for seq in seqs], "what hinders three files")
        os.rename("aside", one.received())
        want([receiver.stored(seq) for seq in seqs], [("retained", name) for name in "pqr"])


def burst(peer, target, datagram):
    """Sends a hundred copies of a datagram, no faster than a server takes many of them."""
    for _ in range(25):
        for _ in range(4):
            peer.sendto(datagram, target)
        time.sleep(0.002)


def flood(peer, target, datagram, is_enough):
    """Sends copies of a datagram until there are enough, for two minutes at most."""
    end = time.monotonic() + 120
    while not is_enough():
        want(time.monotonic() < end, True)
        burst(peer, target, datagram)


def virtual_octets(process):
    """The address space that a process has taken."""
    return int(pathlib.Path(f"/proc/{process}/statm").read_text().split()[0]) * os.sysconf("SC_PAGE_SIZE")


def limited(process):
    """Leaves a process 64 MiB more than it has taken of its address space; gives the limit."""
    taken = virtual_octets(process)
    if taken > 2**40:
        raise Skipped("AddressSanitizer takes a program's whole address space")
    limit = taken + 2**26
    resource.prlimit(process, resource.RLIMIT_AS, (limit, limit))
    return limit


@case
def a_flood_behind_a_limit_of_memory():
    """Copies of one segment fill a lane up to the server's memory limit; other lanes continue, and so does that one once
    its transaction was abandoned. All threads take memory from one arena, as with `examples/cfdp_server.service`."""
    with mock.patch.dict(os.environ, MALLOC_ARENA_MAX="1"), station(SERVER) as (one, peer):
        client = one.client()
        want(client.ask("trace 2 1"), ["refused 1 NoTransaction"])
        limit = limited(one.run.pid)
        target = ("127.0.0.1", one.port)

        def moves(seq, name):
            """Sends a file once more; gives whether it was stored."""
            for datagram in (metadata(seq, 3, name), file_data(seq, 0, b"abc"), end_of_file(seq, b"abc")):
                peer.sendto(datagram, target)
            time.sleep(0.05)
            return (one.received() / name.decode()).exists()

        peer.sendto(metadata(1, 100_000, b"flooded"), target)
        part = file_data(1, 0, bytes(20_000))
        flood(peer, target, part, lambda: one.run.poll() is not None or virtual_octets(one.run.pid) > limit - 2**24)
        # and much more, when it is full
        for _ in range(20):
            burst(peer, target, part)
        want(one.run.poll(), None)
        until(lambda: moves(2, b"beside"), "a file through another lane")
        # for a client that is connected there is memory
        until(lambda: client.ask("abandon alice 2 1") == ["ok"], "the end of the flooded transaction")
        until(lambda: moves(9, b"behind"), "a file through the lane that was flooded")
        want(client.ask("trace 2 2")[0].startswith("refused"), False)


def has_dropped(one, least):
    """Whether more datagrams were dropped that were parked for a lane; a client for which there is no memory says nothing."""
    answer = one.client().ask("status") or []
    return any(line.get("dropped", 0) > least for line in map(json.loads, answer) if line["kind"] == "parked")


@case
def parked_datagrams_give_way_where_memory_runs_out():
    """A flood of datagrams that wait for a busy lane fills the memory; other lanes continue. A client for which there is no memory
    is cut off; the next one is answered."""
    options = ("station.park = 1000000000",)
    with mock.patch.dict(os.environ, MALLOC_ARENA_MAX="1"), station(SERVER, options=options) as (one, peer):
        want(one.client().ask("trace 2 1"), ["refused 1 NoTransaction"])
        limited(one.run.pid)
        target = ("127.0.0.1", one.port)
        peer.sendto(metadata(1, 100_000, b"opened"), target)
        # two workers read, and the later transaction may not begin first
        until(lambda: any(line["kind"] == "transaction" for line in one.client().status()), "the reception that has the lane")
        flood(peer, target, file_data(9, 0, bytes(20_000)), lambda: one.run.poll() is not None or has_dropped(one, 1_000))
        want(one.run.poll(), None)
        for seq, name in enumerate((b"beside", b"again", b"more"), 2):
            for datagram in (metadata(seq, 3, name), file_data(seq, 0, b"abc"), end_of_file(seq, b"abc")):
                peer.sendto(datagram, target)
            until(lambda name=name: (one.received() / name.decode()).exists(), "a file through another lane")
        until(lambda: one.client().ask("abandon alice 2 1") == ["ok"], "the end of the transaction that was opened")


in_own_mounts()
run_cases("stores")
