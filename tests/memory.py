#!/usr/bin/env python3
"""The answers of calls when memory runs out: each allocation of a run is refused in turn, and each answer is that there
was no memory, or the one with ample memory; after the former, the same call gives the ample answer, and so does every
call after it. Then the answers to a million datagrams: half of them are good ones with pseudo-random changes, half are made
field by field. A reader of its own (tests/pdus.py) says which fault each of them has.

usage: tests/memory.py CALLS SCRIPTS

CALLS is crates/hostile_runs/out/hostile_runs, which makes each call once more that found no memory. SCRIPTS is
crates/cfdp_replay/out/cfdp_replay: a line that found no memory is played once more in another run. gcc builds the library
that refuses allocations from tests/failing_malloc.c.
"""
import concurrent.futures
import os
import pathlib
import random
import subprocess
import sys
import tempfile
import time

import pdus
from support import Wrong, library

# How many datagrams there are, and how many of them an entity receives before it is replaced by a new one.
DATAGRAMS = 1_000_000
TURNS = 250
# If memory for a worker's thread runs out, the thread can't be started, which its caller is told.
NO_MEMORY = {"no memory", "no thread"}
# Each of these calls has to answer at least once that there was no memory. The store's answer isn't among them: in class 1 its
# step has one indication and no PDU, and needs no memory.
ASKED = """World::open queues_of Intake::new Intake::send Entity::open deliver run_workers decode encode
read_config TimerList::apply WordReader::with_room Gaps::copy""".split()
# The answer to a send at an intake that is closed, which needs memory first.
CLOSED = "closed"
# How many seconds a run may take, and how many runs are made at the same time.
PATIENCE = 240
AT_ONCE = os.cpu_count() or 1

# Worked transactions, as the lines of scripts: a file is received in class 1, and in class 2, and one is put in class 2,
# of which a segment is requested again.
SCRIPTS = [
    """pdu 24000a0001050207000000000301610162
pdu 3400070001050200000000616263
pdu 24000a0001050204006162630000000003
stored 1 5 2 yes
take alice
take alice
take alice
take alice
take alice
""",
    """pdu 20000a0001050207000000000301610162
pdu 3000070001050200000000616263
pdu 20000a0001050204006162630000000003
stored 1 5 2 yes
timer 1 5 ack 3
timer 1 5 ack 4
take alice
take alice
take alice
take alice
take alice
pdu 20000a0001050204006162630000000003
""",
    """put alice 0 2 1 a b 616263
pump 2 4
pump 2 4
pump 2 4
pump 2 4
pdu 280011000204010800000000000000030000000100000002
pump 2 4
pdu 28000300020401064001
pdu 280002000204010502
take alice
take alice
take alice
take alice
""",
]
# A line with each of these words has to answer at least once that there was no memory.
ASKED_LINES = ["pdu", "put", "pump", "stored", "timer"]
LINE_REFUSED = "refused 12 NoMemory\n"

# Good datagrams: those of a file in either class, and one of each other kind. The sequence number is 5 or 4, and the
# other end is entity 1.
GOOD = [bytes.fromhex(octets) for octets in """24000a0001050207000000000301610162
3400070001050200000000616263
24000a0001050204006162630000000003
20000a0001050207000000000301610162
3000070001050200000000616263
20000a0001050204006162630000000003
20000300010502065102
280011000204010800000000000000030000000100000002
28000300020401064001
280002000204010502
280005000204010584060101
280005000204010c00000003
200002000105020900
200002000105020980
2400130001050207400000000301610162050002026869020178
20000d0001050204f00000000000000000060101
34000a0801050202aabb00000000616263
25000e000105020700000000000000000301610162
35000b000105020000000000000000616263
25000e000105020400616263000000000000000003
29002100020401080000000000000000000000000000000300000000000000010000000000000002""".split()]
# Octets at the ends of ranges.
EDGES = [0x00, 0x01, 0x7F, 0x80, 0xFF]
# The faults of reading that have to come up.
FAULTS = {1, 2, 3, 5, 6, 7, 8}
# The refusals of datagrams that have to come up: no or an old transaction, a busy lane, octets that are not a PDU, and
# no destination. Then those that may.
REFUSALS = {1, 2, 3, 20, 21, 22, 23}
RARE_REFUSALS = {4, 7, 8, 10, 13}


def play(words, around=None, script=""):
    """Runs a program with this input."""
    return subprocess.run(words, env=around, input=script, capture_output=True, text=True, timeout=PATIENCE)


class Failing:
    """Runs of a program in which one allocation is refused, or none."""

    def __init__(self, program, folder):
        self.program = program
        self.folder = folder
        self.library = library("failing_malloc")

    def run(self, refused, script=""):
        """The run if the allocation with this number is refused, and how many allocations there were."""
        with tempfile.NamedTemporaryFile(dir=self.folder) as report:
            around = dict(os.environ, LD_PRELOAD=str(self.library), FAIL_AT=str(refused), FAIL_REPORT=report.name)
            done = play([self.program], around, script)
            made = int(report.read())
        if made < refused:
            raise Wrong(f"allocation {refused}: only {made} came")
        return done, made


def answers_of(text):
    """The answers of a run, each with its title."""
    answers = []
    for block in text.split("> ")[1:]:
        title, _, answer = block.partition("\n")
        answers.append((title, answer.strip()))
    return answers


class Calls(Failing):
    """The calls of the program that repeats each which found no memory."""

    def __init__(self, program, folder):
        super().__init__(program, folder)
        self.ample, self.allocations = self.answers(0)
        if not self.ample:
            raise Wrong("a run with ample memory prints no answer")
        for title, answer in self.ample:
            if answer in NO_MEMORY:
                raise Wrong(f"{title}: no memory, where no allocation is refused")

    def answers(self, refused):
        """The answers if the allocation with this number is refused, and how many allocations there were."""
        done, made = self.run(refused)
        if done.returncode != 0:
            raise Wrong(f"allocation {refused} refused: status {done.returncode}, {done.stderr.strip()}")
        return answers_of(done.stdout), made

    def compare(self, refused):
        """Compares a run with the one that had ample memory; gives the title of the call that ran out of memory, if one did."""
        answers, _ = self.answers(refused)
        lacking = None
        place = 0
        for title, answer in answers:
            if answer in NO_MEMORY and lacking is None:
                lacking = (place, title)
                continue
            if place >= len(self.ample) or (title, answer) != self.ample[place]:
                wanted = self.ample[place] if place < len(self.ample) else "nothing more"
                raise Wrong(f"allocation {refused} refused: {(title, answer)}, with ample memory {wanted}")
            if lacking is not None and lacking[0] == place and lacking[1] != title:
                raise Wrong(f"allocation {refused} refused: {lacking[1]} is not made again")
            place += 1
        if place != len(self.ample):
            raise Wrong(f"allocation {refused} refused: {place} answers of {len(self.ample)}")
        return lacking


class Script(Failing):
    """A script, with the output of each of its fronts."""

    def __init__(self, program, folder, text):
        super().__init__(program, folder)
        self.lines = text.splitlines(keepends=True)
        self.fronts = []
        for count in range(len(self.lines) + 1):
            done, self.allocations = self.run(0, "".join(self.lines[:count]))
            if done.returncode != 0 or LINE_REFUSED in done.stdout:
                raise Wrong(f"{count} lines with ample memory: status {done.returncode}, {done.stdout}{done.stderr}")
            self.fronts.append(done.stdout)

    def compare(self, refused):
        """Compares a run with the one that had ample memory; gives the word of the line that ran out of memory, if one
        did."""
        done, _ = self.run(refused, "".join(self.lines))
        given, ample = done.stdout, self.fronts[-1]
        if done.returncode == 1 and done.stderr == "no memory\n" and given in self.fronts:
            return None
        if done.returncode != 0 or done.stderr:
            raise Wrong(f"allocation {refused} refused: status {done.returncode}, {given}{done.stderr}")
        if given == ample:
            return None
        place = max(count for count, front in enumerate(self.fronts) if given.startswith(front))
        again = self.lines[: place + 1] + self.lines[place:]
        done, _ = self.run(refused, "".join(again))
        wanted = self.fronts[place] + LINE_REFUSED + ample[len(self.fronts[place]) :]
        if done.returncode != 0 or done.stdout != wanted:
            raise Wrong(f"allocation {refused} refused: line {place + 1} twice prints {done.stdout}, not {wanted}")
        return self.lines[place].split()[0]


def refuse_each(runs):
    """Refuses each allocation in turn; gives what ran out of memory."""
    with concurrent.futures.ThreadPoolExecutor(AT_ONCE) as pool:
        lacking = list(pool.map(runs.compare, range(1, runs.allocations + 1)))
    return [one for one in lacking if one is not None]


def check_calls(program, folder):
    """Refuses each allocation of the program that makes calls."""
    began = time.monotonic()
    runs = Calls(program, folder)
    seen = refuse_each(runs)
    titles = {title for _, title in seen}
    for title in ASKED:
        if title not in titles:
            raise Wrong(f"{title}: it never says that there is no memory")
    if not any(runs.ample[place][1] == CLOSED for place, _ in seen):
        raise Wrong(f"no call that is answered {CLOSED} ever says that there is no memory")
    print(
        f"memory: {runs.allocations} allocations, each refused in turn: {len(seen)} times the answer was that there is"
        f" no memory, to {len(set(seen))} of {len(runs.ample)} calls; all else as with ample memory"
        f" ({time.monotonic() - began:.0f} s)"
    )


def check_scripts(program, folder):
    """Refuses each allocation of the scripts."""
    began = time.monotonic()
    seen, allocations = [], 0
    for text in SCRIPTS:
        script = Script(program, folder, text)
        allocations += script.allocations
        seen += refuse_each(script)
    for word in ASKED_LINES:
        if word not in seen:
            raise Wrong(f"no line with {word} ever says that there is no memory")
    print(
        f"scripts: {allocations} allocations, each refused in turn: {len(seen)} times a line's answer was that there is no"
        f" memory; all else as with ample memory, or the run ended with that ({time.monotonic() - began:.0f} s)"
    )


def change(lots, octets):
    """Changes a datagram in one way."""
    place, other = lots.randrange(max(len(octets), 1)), lots.randrange(256)
    way = lots.randrange(9)
    if way in (3, 4):
        del octets[place:]
    elif way in (7, 8):
        octets.append(other)
    elif way == 5:
        # the datagram is turned around: the direction in its first octet, and the IDs of both ends
        if octets:
            octets[0] ^= 8
        if len(octets) > 6:
            octets[4], octets[6] = octets[6], octets[4]
    elif way == 6:
        # a length of 0 where a file's name may begin
        if len(octets) > 14:
            octets[13 + place % 2] = 0
    elif octets:
        octets[place] = [octets[place] ^ 1 << other % 8, other, EDGES[other % len(EDGES)]][way]
    if way in (4, 8) and len(octets) >= 7:
        # the length fits, where each ID and the sequence number has one octet
        octets[1:3] = (len(octets) - 7).to_bytes(2, "big")


def changed(lots):
    """A good datagram with up to three changes."""
    octets = bytearray(lots.choice(GOOD))
    for _ in range(lots.randrange(4)):
        change(lots, octets)
    return octets


def check_answer(octets, answer):
    """Compares the answer to a datagram with what it may be; gives what it was."""
    fault = pdus.fault_of(octets)
    words = answer.split()
    number = 0 if answer == "ok" else int(words[1])
    told = int(words[3]) if number == 20 else None
    if told != fault or number not in REFUSALS | RARE_REFUSALS | {0}:
        raise Wrong(f"{octets.hex()} is answered {answer}")
    return number, told


def deliver(program, seed):
    """Delivers datagrams to an entity that has sent a file in class 2, and keeps files that it receives; gives the answers that
    came. With an even seed they are good ones that are changed, with an odd one they are made field by field."""
    lots = random.Random(seed)
    maker = pdus.Maker(lots)
    script, events = ["put alice 0 2 1 a b 616263", "pump 2 4", "pump 2 4", "pump 2 4"], [None] * 4
    for turn in range(TURNS):
        octets = maker.pdu() if seed % 2 else changed(lots)
        if octets:
            script.append(f"pdu {octets.hex()}")
            events.append(octets)
        script += [f"stored 1 5 {turn % 8 + 1} yes", "take alice", "take alice"]
        events.append(None)
    done = play([program], script="\n".join(script) + "\n")
    answers = [line for line in done.stdout.splitlines() if line == "ok" or line.startswith("refused ")]
    if done.returncode != 0 or done.stderr or len(answers) != len(events):
        raise Wrong(f"datagrams, seed {seed}: status {done.returncode}, {done.stdout[-300:]}{done.stderr}")
    return {check_answer(octets, answer) for octets, answer in zip(events, answers) if octets is not None}


def check_datagrams(program):
    """Delivers datagrams. Each fault and each refusal has to come up among either kind."""
    began = time.monotonic()
    seen = [set(), set()]
    with concurrent.futures.ProcessPoolExecutor(AT_ONCE) as pool:
        worlds = DATAGRAMS // TURNS
        answers = pool.map(deliver, [program] * worlds, range(worlds), chunksize=20)
        for seed, came in enumerate(answers):
            seen[seed % 2] |= came
    for kind, came in zip(("changed", "made"), seen):
        numbers, faults = {number for number, _ in came}, {told for _, told in came}
        lacking = sorted((REFUSALS | {0}) - numbers), sorted(FAULTS - faults)
        if lacking != ([], []):
            raise Wrong(f"{kind} datagrams: the refusals {lacking[0]} and the faults {lacking[1]} never came")
    print(
        f"{DATAGRAMS} datagrams come, half of them changed, half made field by field: each answer is the one of the fault"
        f" that it has, and each kind came ({time.monotonic() - began:.0f} s)"
    )


def main():
    if len(sys.argv) != 3:
        sys.exit("usage: tests/memory.py CALLS SCRIPTS")
    calls, scripts = map(os.path.abspath, sys.argv[1:])
    for program in (calls, scripts):
        if not os.access(program, os.X_OK):
            sys.exit(f"tests/memory.py: {program} is not there")
    try:
        with tempfile.TemporaryDirectory() as folder:
            check_calls(calls, pathlib.Path(folder))
            check_scripts(scripts, pathlib.Path(folder))
        check_datagrams(scripts)
    except (Wrong, subprocess.TimeoutExpired) as wrong:
        sys.exit(f"tests/memory.py: {wrong}")


if __name__ == "__main__":
    main()
