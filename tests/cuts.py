#!/usr/bin/env python3
"""What a power cut may leave, at each moment of a running server: what it asks of the disk is recorded, and each state that a cut
may leave is made of that. In each of them every file that anybody was told of as retained is whole, and no number comes twice.

usage: tests/cuts.py SERVER

Of octets that were written behind flushed ones a cut may leave any, with zeros in place of the others. A server starts on what may be
found of its numbers and its outbox.

A check of this kind must fail where a flush is left out: the script leaves out each one that was recorded, and wants that.
"""
import itertools
import json
import os
import pathlib
import socket
import sys

from support import Wrong, case, end_of_file, file_data, library, metadata, run_cases, station, until, want

SERVER = os.path.abspath(sys.argv[1])
FOLDER = object()
MOST_STATES = 4_096
MOST_STARTS = 24
FINISHED = 5


def holed(octets):
    """What a cut may leave of octets that weren't flushed: those up to some place, with zeros in place of some, and zeros behind them."""
    third, half, count = len(octets) // 3, len(octets) // 2, len(octets)
    zeros = bytes(count)
    return {
        b"", octets, octets[:half], octets[:-1], zeros, octets + b"\0\0\0", zeros[:half] + octets[half:], octets[:half] + zeros[half:],
        octets[:third] + zeros[third : 2 * third] + octets[2 * third :], zeros[:1] + octets[1:],
    }


class File:
    """A file that was made: its octets, and how many of them were flushed."""

    def __init__(self):
        self.octets = b""
        self.flushed = 0

    def found(self):
        """What may be found in it after a cut: anything, where nothing was flushed; otherwise what was, and a part of the rest."""
        if self.flushed == len(self.octets):
            return {self.octets}
        if self.flushed <= 0:
            return {self.octets, b"", self.octets[:-1] + b"?"}
        return {self.octets[: self.flushed] + rest for rest in holed(self.octets[self.flushed :])}


class Disk:
    """What is known of a disk by the calls that were made."""

    def __init__(self):
        self.now = {}
        self.may = {}

    def set(self, path, entry):
        self.may.setdefault(path, {None} if path not in self.now else {self.now[path]}).add(entry)
        self.now[path] = entry

    def make(self, call, path, more):
        """Follows a call."""
        if call == "create":
            self.set(path, File())
        elif call == "folder":
            self.set(path, FOLDER)
        elif call in ("rename", "link"):
            self.set(more, self.now.get(path))
            if call == "rename":
                self.set(path, None)
        elif call == "remove":
            self.set(path, None)
        elif call in ("write", "empty"):
            file = self.now.get(path)
            if file is not None:
                file.octets = file.octets + bytes.fromhex(more) if call == "write" else b""
                file.flushed = file.flushed if call == "write" else -1
        elif call == "flush":
            file = self.now.get(path)
            if isinstance(file, File):
                file.flushed = len(file.octets)
            else:
                for entry in self.may:
                    if os.path.dirname(entry) == path:
                        self.may[entry] = {self.now[entry]}

    def states(self):
        """Each state that a cut may leave: octets by path."""
        paths = sorted(self.may)
        choices = []
        for path in paths:
            found = set()
            for entry in self.may[path]:
                found |= {entry} if entry in (None, FOLDER) else entry.found()
            choices.append(sorted(found, key=repr))
        count = 1
        for found in choices:
            count *= len(found)
        if count > MOST_STATES:
            raise Wrong(f"{count} states")
        for chosen in itertools.product(*choices):
            state = dict(zip(paths, chosen))
            yield {path: octets for path, octets in state.items() if octets not in (None, FOLDER) and reaches(state, path)}


def reaches(state, path):
    """Whether each folder that was made on the way to a path is there."""
    folder = os.path.dirname(path)
    return folder == path or folder == "" or (state.get(folder, FOLDER) is FOLDER and reaches(state, folder))


def calls_in(path, home):
    """The recorded calls, with paths below the folder where the server ran."""
    calls = []
    for line in pathlib.Path(path).read_text().splitlines():
        call, *words = line.split(" ")
        paths = [os.path.normpath(os.path.join(home, word)) for word in words[:2 if call in ("rename", "link") else 1]]
        calls.append((call, paths[0], paths[1] if len(paths) > 1 else (words[1] if len(words) > 1 else "")))
    return calls


class Told:
    """What was said of files: by the log, and by Finished PDUs."""

    def __init__(self, log, files, folder):
        self.log = log
        self.files = files
        self.folder = folder
        self.retained = {}
        self.text = b""

    def hear(self, call, path, more):
        """Hears a call; gives whether it tells of a retained file."""
        before = len(self.retained), list(self.retained.values())
        if call == "write" and path == self.log:
            self.text += bytes.fromhex(more)
            *lines, self.text = self.text.split(b"\n")
            for line in lines:
                event = json.loads(line)
                if event["kind"] == "stored" and event["status"] == "retained":
                    self.tell(event["seq"])
        if call == "send":
            seq = finished_of(bytes.fromhex(more))
            if seq is not None:
                self.tell(seq)
        return before != (len(self.retained), list(self.retained.values()))

    def tell(self, seq):
        place, _ = self.files[seq]
        self.retained[f"{self.folder}/{place}"] = seq

    def check(self, state):
        """Each file that was told as retained is there, whole, unless a later one took its place; and no name has part of a file."""
        for path, seq in self.retained.items():
            place = path[len(self.folder) + 1:]
            later = [octets for other, (name, octets) in self.files.items() if name == place and other >= seq]
            if state.get(path) not in later:
                raise Wrong(f"{place} was told as retained and has {state.get(path)!r}")
        for path, octets in state.items():
            place = path[len(self.folder) + 1:]
            if path.startswith(self.folder + "/") and not os.path.basename(path).startswith(".part-"):
                if octets not in [whole for name, whole in self.files.values() if name == place]:
                    raise Wrong(f"{place} has {octets!r}")


def finished_of(octets):
    """The number of the transaction that a Finished PDU says is complete and retained; None for another PDU."""
    if not octets or octets[0] & 0x10 or not octets[0] & 0x08:
        return None
    ids, numbers = (octets[3] >> 4 & 7) + 1, (octets[3] & 7) + 1
    head = 4 + 2 * ids + numbers
    if octets[head] != FINISHED or octets[head + 1] & 0xF7 != 0x02:
        return None
    return int.from_bytes(octets[4 + ids:4 + ids + numbers], "big")


def check_stores(calls, log, files, folder):
    """Checks each state at each moment; gives how many files were told as retained."""
    disk, told = Disk(), Told(log, files, folder)
    for call, path, more in calls:
        if path.startswith(folder):
            disk.make(call, path, more)
        told.hear(call, path, more)
        for state in disk.states():
            told.check(state)
    return len(told.retained)


def want_all_needed(check, calls, below, first=0):
    """A check that passes doesn't pass without any one of the flushes, from one on."""
    check(calls)
    left_out = 0
    for place, (call, path, _) in enumerate(calls):
        if call == "flush" and path.startswith(below):
            left_out += 1
            if left_out <= first:
                continue
            try:
                check(calls[:place] + calls[place + 1:])
            except Wrong:
                continue
            raise Wrong(f"the flush of {path} isn't needed")
    want(left_out > first, True)


def receive(options, files):
    """Receives files, each once the one before it was stored; gives what was asked of the disk."""
    around = {**os.environ, "LD_PRELOAD": library("disk_calls"), "CALLS": os.path.abspath("calls")}
    with station(SERVER, options=("log.file = 'log'", *options), around=around) as (one, peer):
        client = one.client()
        want(client.ask("follow"), ["ok"])
        for seq, (name, octets) in files.items():
            for datagram in (metadata(seq, len(octets), name), file_data(seq, 0, octets), end_of_file(seq, octets)):
                peer.sendto(bytes([datagram[0] & ~4]) + datagram[1:], ("127.0.0.1", one.port))
            event = client.wait_event(lambda event: event["kind"] == "stored" and event["seq"] == seq, f"the file {seq}")
            want(event["status"], "retained")
        heard = set()
        until(lambda: has_heard(peer, heard, len(files)), "a Finished PDU for each file")
        want((client.ask("quit"), one.run.wait(60)), (["ok"], 0))
        return calls_in("calls", os.getcwd()), os.path.abspath("log"), str(one.received().absolute())


def has_heard(peer, heard, count):
    """Whether so many transactions were reported as complete and retained, with those that were heard of before."""
    peer.settimeout(0.5)
    try:
        while len(heard) < count:
            heard.add(finished_of(peer.recv(2_048)))
            heard.discard(None)
    except (socket.timeout, TimeoutError):
        pass
    return len(heard) >= count


def stores(options, names, places):
    """Checks a kind of store, which keeps files of these names at these places."""
    files = {seq: (name, bytes([seq]) * 40) for seq, name in enumerate(names, 1)}
    calls, log, folder = receive(options, files)
    kept = {seq: (place, files[seq][1]) for seq, place in enumerate(places, 1)}
    want(check_stores(calls, log, kept, folder), len(set(places)))
    want_all_needed(lambda some: check_stores(some, log, kept, folder), calls, folder)


@case
def files_that_replace_others():
    stores((), (b"a", b"b", b"a"), ("a", "b", "a"))


@case
def files_that_are_tried_first():
    stores(("store.retry_s = 10",), (b"a", b"a", b"b"), ("a", "a", "b"))


@case
def files_in_folders():
    stores(("store.layout = 'tree'",), (b"p/q/a", b"p/q/b", b"p/q/a", b"c"), ("p/q/a", "p/q/b", "p/q/a", "c"))


@case
def files_beside_others():
    stores(("store.existing = 'keep'",), (b"a", b"a", b"a"), ("a", "a.1", "a.2"))


@case
def files_beside_others_in_folders():
    stores(("store.layout = 'tree'", "store.existing = 'keep'"), (b"d/a", b"d/a", b"e/f/a"), ("d/a", "d/a.1", "e/f/a"))


def check_numbers(calls, path):
    """At each moment, what may be found of the numbers' file is above all numbers that left; gives each text that may be found."""
    disk, given, texts = Disk(), 0, {}
    for call, at, more in calls:
        if at.startswith(path):
            disk.make(call, at, more)
        elif call == "flush" and at == os.path.dirname(path):
            disk.make(call, at, more)
        if call == "send":
            given = max(given, number_of(bytes.fromhex(more)))
        for state in disk.states():
            found = state.get(path, b"")
            if given > 0 and (not found.endswith(b"\n") or not found[:-1].isdigit() or int(found) <= given):
                raise Wrong(f"the number {given} left, and the file may have {found!r}")
            texts[found] = given
    return texts


def number_of(octets):
    """The number of a PDU's transaction, 0 if the datagram is none."""
    if not octets:
        return 0
    ids, numbers = (octets[3] >> 4 & 7) + 1, (octets[3] & 7) + 1
    return int.from_bytes(octets[4 + ids:4 + ids + numbers], "big")


def put_some(count, **around):
    """Puts files with numbers in a file, and gives the last number that left."""
    with station(SERVER, options=("sending.numbers = 'numbers'",), **around) as (one, peer):
        client = one.client()
        pathlib.Path("file").write_bytes(b"abc")
        last = 0
        for _ in range(count):
            want(client.ask("put alice 0 1 2 file file")[0], "ok")
            last = max(last, number_of(peer.recv(2_048)))
            until(lambda: client.status() and all(line.get("state") in (None, "ended") for line in client.status()), "the file's end")
        want((client.ask("quit"), one.run.wait(60)), (["ok"], 0))
        return last


@case
def numbers():
    """A start on each state that a cut may leave gives no number that left before. The first two flushes are those of the start,
    when none had left."""
    around = {**os.environ, "LD_PRELOAD": library("disk_calls"), "CALLS": os.path.abspath("calls")}
    put_some(70, around=around)
    path = os.path.abspath("numbers")
    calls = calls_in("calls", os.getcwd())
    texts = check_numbers(calls, path)
    want_all_needed(lambda some: check_numbers(some, path), calls, os.path.dirname(path), first=2)
    want(len(texts) > 2, True)
    for text, given in texts.items():
        if text and given:
            pathlib.Path("numbers").write_bytes(text)
            want(put_some(1) > given, True)


def book_of(text):
    """The names that the files of an outbox get, by their numbers, in order; None if a line that no cut tore can't be read."""
    *lines, _ = text.split(b"\n")
    book = {}
    for line in lines:
        words = line.split(b" ")
        if b"\0" in line:
            continue
        if words[0] not in (b"next", b"queued", b"began", b"ended", b"dropped") or not words[1].isdigit():
            return None
        if words[0] == b"queued":
            book[int(words[1])] = words[8].decode()
        elif words[0] in (b"ended", b"dropped"):
            book.pop(int(words[1]), None)
    return book


def check_outbox(calls, path):
    """At each moment the file of the outbox says what was answered, or also what was asked and isn't answered yet; gives each text that may
    be found, with what it may say. Among the calls are the answers, each with what waits from then on."""
    disk, texts, now = Disk(), {}, {}
    for place, (call, at, more) in enumerate(calls):
        if call == "answer":
            now = more
        elif at.startswith(path) or (call == "flush" and at == os.path.dirname(path)):
            disk.make(call, at, more)
        allowed = [now] + [waiting for call, _, waiting in calls[place + 1 :] if call == "answer"][:1]
        for state in disk.states():
            found = state.get(path, b"")
            if book_of(found) not in allowed:
                raise Wrong(f"{found!r} says {book_of(found)} and not one of {allowed}")
            texts.setdefault(found, []).extend(allowed)
    return texts


def queue_some():
    """Queues files and drops some; gives the calls to the disk, and among them the answers with what waits from then on."""
    around = {**os.environ, "LD_PRELOAD": library("disk_calls"), "CALLS": os.path.abspath("calls")}
    answers, waiting = [], {}
    with station(SERVER, options=("sending.outbox = 'outbox'", "station.hold = true"), around=around) as (one, _):
        client = one.client()
        for number in range(1, 7):
            want(client.ask(f"send alice 2 2 file name{number}"), [f"queued {number}"])
            waiting = {**waiting, number: f"name{number}"}
            answers.append((len(calls_in("calls", os.getcwd())), waiting))
            if number % 3 == 0:
                want(client.ask(f"drop {number - 1}"), ["ok"])
                waiting = {other: name for other, name in waiting.items() if other != number - 1}
                answers.append((len(calls_in("calls", os.getcwd())), waiting))
        one.close()
    calls = calls_in("calls", os.getcwd())
    for count, waits in reversed(answers):
        calls.insert(count, ("answer", "", waits))
    return calls


@case
def an_outbox():
    """A start on each state of its file that a cut may leave has the files that were answered, and not those that were dropped."""
    pathlib.Path("file").write_bytes(b"abc")
    calls = queue_some()
    path = os.path.abspath("outbox")
    texts = check_outbox(calls, path)
    want_all_needed(lambda some: check_outbox(some, path), calls, path, first=1)
    want(len(texts) > 20, True)
    chosen = [text for text in sorted(texts) if text]
    for text in chosen[:: 1 + len(chosen) // MOST_STARTS]:
        pathlib.Path("outbox").write_bytes(text)
        with station(SERVER, options=("sending.outbox = 'outbox'", "station.hold = true")) as (one, _):
            waits = {line["number"]: line["to"] for line in map(json.loads, one.client().ask("outbox"))}
        want(waits in texts[text], True)


run_cases("cuts")
