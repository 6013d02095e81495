#!/usr/bin/env python3
"""A control socket with invented transactions, by docs/control-socket.md.

usage: tests/fake_station.py SOCKET [OPTION..]

  --transactions N   transactions that are under way (3)
  --users A,B        users (ops)
  --pace OCTETS      how many octets a second such a transaction receives (20000)
  --step SECONDS     how long a file takes from its start to its end (0.3)
  --lanes N          how many files of the outbox are under way at once (any number)
  --odd              names with quotes, control characters and octets that are no text
  --vanish SECONDS   ends without a word, this long after the first send
  --half             answers a status with the beginning of a line only
  --busy             has no seat for anybody
  --old              knows no status and no follow
  --refuse           refuses each send: the outbox is full
  --faulty N         can't write the outbox's file for the first N sends (0)
  --lose NAME        the file that ends incomplete
  --lost N           how often that file ends incomplete before it arrives (always)
  --unreadable NAME  the file that can't be read when its turn comes
  --reading A,B      files that are being read for Puts (none)
  --storing N        received files that are being stored, of which all but the first couldn't be stored so far (none)
  --recorded A,B,C   how many recordings were written, of how many transactions the journal was gone, and how many failed
  --parked N         lanes for which datagrams wait; one more has dropped some (0)
  --counters         counts ends, whole files, missing octets (a third of those up to the greatest offset) and when remotes were heard
  --traffic OCTETS   how many octets a second come and leave on the links, more or less (0)
  --note             notes on the lanes of two remote entities
  --room N           how many files that haven't ended the outbox has room for (any number)
  --flood N          events that come before the reply to a second `follow` (0)
  --talk SECONDS     how long the reply to a second `follow` takes, with an event each half second (0)
  --stop SECONDS     stops answering this long after the first send, and stays connected
  --levels           the levels that followers asked for, which a real station doesn't tell, in the entity's line
  --say FILE         what a status says, and which events a follower receives: JSON with lists `status` and `events`
"""
import argparse
import json
import math
import os
import signal
import socket
import threading
import time


def moment(seconds=None):
    """A moment as the station writes it."""
    seconds = time.time() if seconds is None else seconds
    return time.strftime("%Y-%m-%dT%H:%M:%S", time.gmtime(seconds)) + f".{int(seconds * 1000) % 1000:03d}Z"


def words_of(line):
    """The words of a command: plain, or in double quotes with backslashes. None where the line isn't made of words."""
    words, at = [], 0
    while at < len(line):
        if line[at:at + 1] == b" ":
            at += 1
        elif line[at:at + 1] == b'"':
            word, at = b"", at + 1
            while line[at:at + 1] not in (b'"', b""):
                if line[at:at + 2] in (b'\\"', b"\\\\"):
                    word, at = word + line[at + 1:at + 2], at + 2
                elif line[at:at + 2] == b"\\x":
                    word, at = word + bytes.fromhex(line[at + 2:at + 4].decode()), at + 4
                elif line[at:at + 1] == b"\\":
                    return None
                else:
                    word, at = word + line[at:at + 1], at + 1
            if line[at:at + 1] != b'"':
                return None
            words, at = words + [word], at + 1
        else:
            end = line.find(b" ", at)
            end = len(line) if end < 0 else end
            words, at = words + [line[at:end]], end
    return words


def named(member, octets):
    """The member for a file's name."""
    try:
        return {member: octets.decode()}
    except UnicodeDecodeError:
        return {member + "_hex": octets.hex()}


LEVELS = ["detail", "info", "warning"]


WARNINGS = ("unsent", "refused", "unparked", "journal-full", "Fault", "Abandoned")


def level_of(event):
    """The level of an event, as a server has it."""
    name = event.get("name") if event["kind"] == "indication" else event["kind"]
    if name == "File-Segment-Recv":
        return "detail"
    is_whole = event.get("delivery") == "complete" and event.get("status") == "retained"
    is_bad = {"Suspended": event.get("condition") != 14, "stored": event.get("status") != "retained",
              "Transaction-Finished": event.get("condition") != 0 or not is_whole and event.get("status") != "unreported"}
    return "warning" if name in WARNINGS or is_bad.get(name) else "info"


class Station:
    def __init__(self, options):
        self.options = options
        self.begun = time.time()
        self.lock = threading.RLock()
        self.number = 0
        self.kept = []
        self.clients = set()
        self.followers = set()
        self.sent = []
        self.asked = []
        self.faults = 0
        self.held = {}
        self.open_until = {}
        # the limits that commands set, of both links ("all") and of one
        self.rates = {}

    def tell(self, **members):
        with self.lock:
            self.number += 1
            event = {"at": moment(), "number": self.number, **members}
            self.kept = (self.kept + [event])[-1024:]
            for client in list(self.followers):
                client.tell(event)

    def indicate(self, sent, name, **members):
        self.tell(kind="indication", user=sent["user"], source=1, seq=sent["seq"], name=name, **members)

    def run_queued(self, sent):
        """Runs a file of the outbox, which is read when its turn comes."""
        time.sleep(0.05)
        if self.options.unreadable and sent["file"].endswith(self.options.unreadable.encode()):
            sent["state"] = "gone"
            self.unsend(sent, "read fault")
            return
        while (sent["peer"] in self.held or self.is_full()) and sent["state"] == "queued":
            time.sleep(0.02)
        if sent["state"] == "queued":
            sent["state"] = "active"
            self.run_file(sent, queued=sent["queued"])

    def is_full(self):
        """Whether no lane is idle."""
        return self.options.lanes is not None and sum(one["state"] == "active" for one in self.sent) >= self.options.lanes

    def unsend(self, sent, why):
        sent["state"] = "gone"
        self.tell(kind="unsent", queued=sent["queued"], user=sent["user"], destination=sent["peer"],
                  **named("file", sent["file"]), why=why)

    def run_file(self, sent, **queued):
        """Runs a file that is sent: its start, its progress, its end."""
        self.tell(kind="put", user=sent["user"], source=1, seq=sent["seq"], peer=sent["peer"], **{"class": sent["class"]},
                  **named("file", sent["file"]), **named("to", sent["to"]), size=sent["size"], **queued)
        for step in range(10):
            time.sleep(self.options.step / 10)
            sent["octets"] = sent["size"] * (step + 1) // 10
        self.indicate(sent, "EOF-Sent")
        lost = self.options.lose and sent["file"].endswith(self.options.lose.encode())
        if lost and self.options.lost is not None:
            self.options.lost -= 1
            lost = self.options.lost >= 0
        sent["end"] = {"condition": 8, "delivery": "incomplete", "status": "discarded"} if lost else \
            {"condition": 0, "delivery": "incomplete", "status": "unreported"} if sent["unreported"] else \
            {"condition": 0, "delivery": "complete", "status": "retained"}
        sent["state"] = "ended"
        self.indicate(sent, "Transaction-Finished", **sent["end"])

    def add(self, user, number, peer, file, to, state, unreported=False):
        """Adds a file that is sent, or waits to be sent."""
        with self.lock:
            place = len(self.sent)
            sent = {"queued": place + 1, "seq": 100 + place, "user": user.decode(), "class": int(number), "peer": int(peer),
                    "file": file, "to": to, "size": os.path.getsize(file), "octets": 0, "state": state,
                    "unreported": unreported, "since": moment()}
            self.sent.append(sent)
        return sent

    def put_file(self, words):
        """The answer to `put USER LANE CLASS DEST SRC DST`."""
        if len(words) not in (7, 8) or not all(word.isdigit() for word in words[2:5]):
            return "bad command\n"
        if words[5] == b"unnumbered":
            return "numbers fault\n"
        if not os.path.isfile(words[5]):
            return "read fault\n"
        sent = self.add(words[1], *words[3:7], "active")
        threading.Thread(target=self.run_file, args=(sent,), daemon=True).start()
        return f"ok\ntxn 1 {sent['seq']}\n"

    def send_file(self, words):
        """The answer to `send`."""
        words, alias = (words[:-2], words[-1]) if words[-2] == b"as" else (words, None)
        is_urgent = words[-1] == b"urgent"
        words = words[: len(words) - is_urgent]
        if len(words) not in (6, 7) or words[6:] not in ([], [b"closure"]) or not all(word.isdigit() for word in words[2:4]):
            return "bad command\n"
        if self.options.refuse or self.options.room is not None and self.options.room <= sum(
                one["state"] in ("queued", "active") for one in self.sent):
            return "refused OutboxFull\n"
        if self.faults < self.options.faulty:
            self.faults += 1
            return "outbox fault\n"
        if not os.path.isfile(words[4]):
            return "read fault\n"
        sent = self.add(*words[1:6], "queued", unreported=words[2] == b"1" and len(words) == 6)
        self.asked.append((is_urgent, alias))
        sent["told"] = alias or sent["file"]
        if sent["queued"] == 1 and self.options.vanish is not None:
            threading.Timer(self.options.vanish, os._exit, [0]).start()
        if sent["queued"] == 1 and self.options.stop is not None:
            threading.Timer(self.options.stop, os.kill, [os.getpid(), signal.SIGSTOP]).start()
        threading.Thread(target=self.run_queued, args=(sent,), daemon=True).start()
        return f"queued {sent['queued']}\n"

    def end_windows(self):
        """Holds the links that were released for a time that is over."""
        for remote, until in list(self.open_until.items()):
            if until <= time.time():
                del self.open_until[remote]
                self.held[remote] = moment(until)
                self.tell(kind="hold", id=remote, planned=True)

    def transactions(self):
        age = time.time() - self.begun
        for n in range(self.options.transactions):
            size = 100_000 * (n + 1)
            octets = min(size, int(age * self.options.pace))
            name = b'a "b"\x1b[31m\n\xff' if self.options.odd and n % 2 == 0 else \
                b"<img src=x onerror=alert(1)></script>" if self.options.odd else b"file %d.bin" % n
            end = {"condition": 0, "delivery": "complete", "status": "retained"} if octets == size else {}
            lacks = {} if end or not self.options.counters else {"missing": size - octets + octets // 3}
            yield {"kind": "transaction", "source": 7, "seq": n, "user": self.options.users[n % len(self.options.users)],
                   "lane": n, "role": "receiver", "peer": 7, "class": 2, "state": "ended" if end else "active",
                   **named("file", name), "to": f"b{n}.bin", "size": size, "octets": octets, "events": n,
                   "last": moment(time.time() - 1.5), **end, **lacks}
        for sent in list(self.sent):
            if sent["state"] in ("active", "ended"):
                yield {"kind": "transaction", "source": 1, "seq": sent["seq"], "user": sent["user"],
                       "lane": 100 + sent["queued"], "role": "sender", "peer": sent["peer"], "class": sent["class"],
                       "state": sent["state"], **named("file", sent.get("told", sent["file"])), **named("to", sent["to"]),
                       "size": sent["size"], "octets": sent["octets"], "events": 3, "last": moment(), **sent.get("end", {})}

    def is_going(self, words):
        return any([word.decode("latin-1") for word in words] == [one["user"], str(one["source"]), str(one["seq"])]
                   for one in self.transactions() if one["state"] != "ended")

    def queued(self):
        for sent in list(self.sent):
            if sent["state"] == "queued":
                yield {"kind": "queued", "number": sent["queued"], "user": sent["user"], "class": sent["class"],
                       "destination": sent["peer"], **named("file", sent["file"]), **named("to", sent["to"]),
                       "since": sent["since"]}

    def status(self):
        if self.options.say:
            yield from self.options.say["status"]
            return
        moved = {number: self.moved(number) for number in (5, 7)}
        yield {"kind": "entity", "id": 1, "version": "0.1", "started": moment(self.begun), "now": moment(), "workers": 4,
               "clients": len(self.clients), "events": self.number,
               **({"levels": [client.level for client in list(self.followers)]} if self.options.levels else {}),
               "counters": {"datagrams_in": 12, "octets_in": 9000 + moved[5][0] + moved[7][0], "datagrams_out": 3,
                            "octets_out": 90 + moved[5][1] + moved[7][1], "failed_sends": 0,
                            "failed_reads": 0, "foreign_datagrams": 0,
                            "decode_faults": 1, "refused": 1, "stored": 1, "failed_stores": 0, "dropped_clients": 0}}
        yield {"kind": "log", "failing": False, "written": self.number, "lost": 0}
        for name in self.options.users:
            yield {"kind": "user", "name": name, "waiting": 3, "capacity": 1024}
        yield from self.transactions()
        for name in self.options.reading:
            yield {"kind": "reading", "file": name, "since": moment(self.begun)}
        yield from self.queued()
        for number in range(self.options.storing):
            yield {"kind": "storing", "source": 9, "seq": 41 + number, "since": moment(self.begun),
                   **({"why": "no space is left"} if number else {})}
        yield from self.parked()
        for number in (5, 7):
            held = self.held.get(number)
            yield {"kind": "remote", "id": number, "address": f"192.0.2.{number}:4556", "held": held is not None,
                   **({"held_since": held} if held else {}),
                   **({"open_until": moment(self.open_until[number])} if number in self.open_until else {}),
                   **({"rate": rate} if (rate := self.rates.get(number, self.rates.get("all"))) else {}),
                   "datagrams_in": 1, "octets_in": 9 + moved[number][0],
                   "datagrams_out": 1, "octets_out": 9 + moved[number][1], "failed_sends": 0,
                   **({"heard": moment(time.time() - 90), "silence": 90_000} if number == 7 and self.options.counters else {})}
        yield {"kind": "refusal", "number": 20, "name": "DecodeFault", "fault": 3, "count": 3, "last": moment(),
               "from": "192.0.2.1:4556", "octets": "24000a"}
        if self.options.note:
            yield {"kind": "note", "remote": 7, "sending_lanes": 6, "receiving_lanes": 8, "better": [1, 2, 4, 8]}
            yield {"kind": "note", "remote": 5, "sending_lanes": 6, "receiving_lanes": 16, "better": [1, 2, 4, 8, 16]}
        if self.options.counters:
            yield {"kind": "ended", "role": "sender", "class": 2, "condition": 0, "count": 5}
            yield {"kind": "ended", "role": "receiver", "class": 1, "condition": 10, "count": 2}
            yield {"kind": "delivered", "role": "sender", "files": 5, "octets": 700}
            yield {"kind": "delivered", "role": "receiver", "files": 0, "octets": 0}
            yield {"kind": "store", "source": 7, "seq": 3, "at": moment(self.begun), "microseconds": 1500}
        if self.options.recorded:
            yield {"kind": "recorder", **dict(zip(("kept", "missed", "failed"), self.options.recorded))}

    def moved(self, link):
        """How many octets of traffic a link has had each way: they come in waves, and half as many leave."""
        age = time.time() - self.begun
        waves = int(self.options.traffic * (age + 4 * math.sin(age / 5 + link)) + self.options.traffic * 4) if self.options.traffic else 0
        return waves, waves // 2

    def parked(self):
        for lane in range(self.options.parked):
            yield {"kind": "parked", "user": self.options.users[0], "lane": lane, "datagrams": 12, "transactions": 2,
                   "octets": 17000, "dropped": 0, "since": moment(self.begun)}
        if self.options.parked:
            yield {"kind": "parked", "user": self.options.users[0], "lane": self.options.parked, "datagrams": 0,
                   "transactions": 0, "octets": 0, "dropped": 5}

    def lines(self, objects):
        return "".join(json.dumps(one, ensure_ascii=False) + "\n" for one in objects)

    def answer(self, client, line):
        """The answer to a command."""
        words = words_of(line)
        if not words:
            return "bad command\n"
        self.end_windows()
        name = words[0].decode("latin-1")
        if name in ("status", "follow") and self.options.old:
            return "bad command\n"
        if name == "status" and len(words) == 1:
            return self.lines(self.status())
        if name == "follow" and len(words) <= 3:
            with self.lock:
                client.level = words.pop().decode() if words[-1].decode("latin-1") in LEVELS else None
                count = int(words[1]) if len(words) == 2 else 0
                client.first = self.kept[len(self.kept) - count:] if count else []
                if self.options.say:
                    client.first = self.options.say["events"]
            return "ok\n"
        if name == "send":
            return self.send_file(words)
        if name == "outbox":
            return self.lines(self.queued())
        if name in ("hold", "release") and len(words) == 2 or name == "release" and len(words) == 3:
            if words[1] not in (b"5", b"7", b"all"):
                return "refused UnknownRemote\n"
            for remote in (5, 7) if words[1] == b"all" else (int(words[1]),):
                self.held.pop(remote, None)
                self.open_until.pop(remote, None)
                if name == "hold":
                    self.held[remote] = moment()
                elif len(words) == 3:
                    self.open_until[remote] = time.time() + int(words[2])
                self.tell(kind=name, id=remote)
            return "ok\n"
        if name == "rate" and len(words) in (2, 3):
            if len(words) == 3 and words[1] not in (b"5", b"7"):
                return "refused UnknownRemote\n"
            link = int(words[1]) if len(words) == 3 else "all"
            self.rates.pop(link, None)
            if words[-1] != b"off":
                self.rates[link] = int(words[-1])
            return "ok\n"
        if words == [b"drop", b"507"]:
            return "outbox fault\n"
        if name == "drop" and len(words) == 2 and words[1].isdigit():
            for sent in self.sent:
                if sent["state"] == "queued" and sent["queued"] == int(words[1]):
                    self.unsend(sent, "dropped")
                    return "ok\n"
            return "refused NotQueued\n"
        if name == "journal" and len(words) == 3:
            known = any(words[1:] == [str(one["source"]).encode(), str(one["seq"]).encode()] for one in self.transactions())
            if words[1:] == [b"2", b"43"]:
                return "# \x1b]0;a title\x07\u202e\n"
            return "# a recording\ntake ops\n" if known or words[1:] == [b"2", b"41"] else "refused 1 NoTransaction\n"
        if name == "take":
            return "refused TakenByEvents\n"
        if name in ("cancel", "resume", "abandon"):
            return "ok\n" if self.is_going(words[1:]) else "refused 1 NoTransaction\n"
        if name == "put":
            return self.put_file(words)
        if name in ("suspend", "quit"):
            return "ok\n"
        return "bad command\n"


class Client:
    def __init__(self, station, stream):
        self.station = station
        self.stream = stream
        self.first = None
        self.level = None

    def send(self, text):
        try:
            self.stream.sendall(text.encode())
        except OSError:
            self.station.followers.discard(self)

    def tell(self, event):
        """Sends an event; of a client's level or above, with its level, if the client follows a level."""
        if self.level is not None:
            event = {**event, "level": level_of(event)}
            if LEVELS.index(event["level"]) < LEVELS.index(self.level):
                return
        self.send("event " + json.dumps(event, ensure_ascii=False) + "\n")

    def talk(self):
        """Sends events before a reply."""
        event = "event " + json.dumps({"at": moment(), "number": 1, "kind": "release", "id": 7}) + "\n"
        self.send(event * self.station.options.flood)
        end = time.monotonic() + self.station.options.talk
        while time.monotonic() < end:
            self.send(event)
            time.sleep(0.5)

    def serve(self):
        if self.station.options.busy:
            self.send("busy\n")
            self.stream.close()
            return
        try:
            for line in self.stream.makefile("rb"):
                self.take(line.rstrip(b"\n"))
        except OSError:
            pass
        self.station.clients.discard(self)
        self.station.followers.discard(self)
        self.stream.close()

    def take(self, line):
        if self.station.options.half and line == b"status":
            self.send('{"kind":"entity","id":1,')
            return
        if line.startswith(b"follow") and self in self.station.followers:
            self.talk()
        with self.station.lock:
            # a client that has asked nothing isn't counted, so that a test knows who follows
            self.station.clients.add(self)
            answer = self.station.answer(self, line)
            self.send(answer + ".\n")
            if self.first is not None:
                for event in self.first:
                    self.tell(event)
                self.station.followers.add(self)
                self.first = None
        if line == b"quit":
            os._exit(0)


def main():
    parser = argparse.ArgumentParser()
    parser.add_argument("socket")
    parser.add_argument("--transactions", type=int, default=3)
    parser.add_argument("--users", type=lambda text: text.split(","), default=["ops"])
    parser.add_argument("--step", type=float, default=0.3)
    parser.add_argument("--lanes", type=int)
    parser.add_argument("--odd", action="store_true")
    parser.add_argument("--vanish", type=float)
    parser.add_argument("--half", action="store_true")
    parser.add_argument("--busy", action="store_true")
    parser.add_argument("--old", action="store_true")
    parser.add_argument("--refuse", action="store_true")
    parser.add_argument("--faulty", type=int, default=0)
    parser.add_argument("--lose")
    parser.add_argument("--lost", type=int)
    parser.add_argument("--unreadable")
    parser.add_argument("--reading", type=lambda text: text.split(","), default=[])
    parser.add_argument("--pace", type=int, default=20_000)
    parser.add_argument("--storing", type=int, default=0)
    parser.add_argument("--recorded", type=lambda text: [int(word) for word in text.split(",")])
    parser.add_argument("--parked", type=int, default=0)
    parser.add_argument("--traffic", type=int, default=0)
    parser.add_argument("--note", action="store_true")
    parser.add_argument("--counters", action="store_true")
    parser.add_argument("--room", type=int)
    parser.add_argument("--flood", type=int, default=0)
    parser.add_argument("--talk", type=float, default=0)
    parser.add_argument("--stop", type=float)
    parser.add_argument("--levels", action="store_true")
    parser.add_argument("--say", type=lambda path: json.load(open(path)))
    options = parser.parse_args()
    if os.path.exists(options.socket):
        os.unlink(options.socket)
    listener = socket.socket(socket.AF_UNIX)
    listener.bind(options.socket + ".new")
    os.chmod(options.socket + ".new", 0o600)
    listener.listen(16)
    # who sees the path may connect
    os.rename(options.socket + ".new", options.socket)
    station = Station(options)
    station.tell(kind="start", id=1, version="0.1")
    while True:
        stream, _ = listener.accept()
        threading.Thread(target=Client(station, stream).serve, daemon=True).start()


main()
