#!/usr/bin/env python3
"""Python's module over the library: what it refuses before the library is called, what a failed call leaves, the longest PDU, the
loop of the examples, and the package, built and installed from this checkout without a network.

usage: tests/module.py, after tools/lib.sh
"""
import copy
import importlib.util
import os
import pathlib
import pickle
import re
import socket
import subprocess
import sys
import threading

from support import Skipped, Wrong, case, run_cases, until, want

TOP = pathlib.Path(__file__).resolve().parent.parent
sys.path[:0] = [str(TOP / "python"), str(TOP / "examples" / "python")]
import cfdp  # noqa: E402
from cfdp import (  # noqa: E402
    Checksum, Class, Condition, Deposit, Entity, Error, Handler, Kind, Phase, Refusal, Remote, Request, Role, Setting, Timer,
    TimerKind)

CONFIGURATION = """
[entity]
id = {id}
id_octets = {octets}
seq_octets = {octets}
first = 1
put_lanes = 2
recv_lanes = 2
capacity = 64
segment = 1400
[[user]]
name = "ops"
{users}[[remote]]
id = {remote}
address = "127.0.0.1:{port}"
user = "ops"
ack_ms = 1000
nak_ms = 1000
check_ms = 1000
inactivity_ms = 9000
ack_limit = 3
nak_limit = 3
check_limit = 3
"""

# How many lanes each remote entity has here.
LANES_IN = 2

# The number of an entity's first transaction: that of its first sending lane, of two.
FIRST = 2


def entity(number=2, remote=1, octets=1, port=7001, users=""):
    return Entity(CONFIGURATION.format(id=number, remote=remote, octets=octets, port=port, users=users))


def put(one, lane=0, file=b"abc"):
    """The transaction of a Put."""
    return one.put(0, lane, 1, b"a", b"b", file)


def pumped(one):
    """The PDUs of the transactions in turn, until none has anything to send; and whose they were."""
    pdus, turns = [], []
    while txn := one.next_pump():
        try:
            done = one.pump(*txn)
        except Refusal:
            continue
        turns.append(txn.seq)
        pdus += done.pdus
    return pdus, turns


def refused(kind, call):
    """The exception of this kind that a call raises."""
    try:
        found = call()
    except kind as why:
        return why
    raise Wrong(f"{found!r} in place of {kind.__name__}")


@case
def numbers_that_no_field_holds():
    with entity() as one:
        for call in (lambda: one.put(0, 2**64 + 1, 1, b"a", b"b", b""), lambda: one.put(2**64, 0, 1, b"a", b"b", b""),
                     lambda: one.put(0, 0, 2**64, b"a", b"b", b""), lambda: one.put(0, -1, 1, b"a", b"b", b""),
                     lambda: one.pump(2**64 + 2, 1), lambda: one.pump(2, -1), lambda: one.take(2**64),
                     lambda: one.timer(Timer(2, 1, TimerKind.ACK, 2**32, 0, True)), lambda: one.stored(Deposit(2, 1, -1), True),
                     lambda: one.request(2**70, Request.CANCEL, 2, 1)):
            refused(OverflowError, call)
        for call in (lambda: one.put(0, 0, 1, b"a", b"b", b"", service=2**32 + 1), lambda: one.request(0, 9, 2, 1)):
            refused(ValueError, call)
        refused(TypeError, lambda: one.pump("2", 1))
        want(one.put(0, 0, 1, b"a", b"b", b"c").seq, FIRST)


@case
def octets_alone():
    with entity() as one:
        for call in (lambda: one.deliver(5), lambda: one.deliver("ab"), lambda: one.put(0, 0, 1, b"a", b"b", 100),
                     lambda: one.put(0, 0, 1, "a", b"b", b""), lambda: one.put(0, 0, 1, b"a", b"b", b"", messages=b"ab"),
                     lambda: one.put(0, 0, 1, b"a", b"b", b"", messages=(1,)), lambda: Entity(7)):
            refused(TypeError, call)
        want(one.put(0, 0, 1, bytearray(b"a"), memoryview(b"b"), b"c").seq, FIRST)


@case
def messages_of_a_put_that_was_refused():
    with entity() as one:
        refused(ValueError, lambda: one.put(0, 0, 1, b"a", b"b", b"", service=7, messages=(b"lost",)))
        refused(TypeError, lambda: one.put(0, 0, 1, b"a", b"b", None, messages=(b"lost",)))
        refused(Error, lambda: one.put(0, 0, 1, b"", b"b", b"", messages=(b"lost",)))
        refused(Error, lambda: one.put(7, 0, 1, b"a", b"b", b"", messages=(b"lost",)))
        done = one.put(0, 0, 1, b"a", b"b", b"c", messages=(b"kept",))
        metadata = one.pump(done.source, done.seq).pdus[0]
        want((b"lost" in metadata, b"kept" in metadata), (False, True))


@case
def no_copies():
    with entity() as one:
        for call in (lambda: copy.copy(one), lambda: copy.deepcopy(one), lambda: pickle.dumps(one)):
            refused(TypeError, call)
        want(one.users, 1)
    refused(cfdp.Closed, lambda: one.users)


@case
def errors_and_names():
    with entity() as one:
        why = refused(Refusal, lambda: one.pump(2, 9))
        want((isinstance(why, Error), why.code, why.number, why.name), (True, cfdp.REFUSED, 1, "NoTransaction"))
        done = one.put(0, 0, 1, b"a", b"b", b"c")
        one.request(0, Request.CANCEL, done.source, done.seq)
        told = [said for bundle in one.bundles(0) for said in bundle.indications]
        want(told[0].kind, Kind.TRANSACTION)
        want((Condition(15).name, str(Condition.NAK_LIMIT_REACHED)), ("CANCEL_REQUEST_RECEIVED", "7"))


@case
def the_longest_pdu():
    numbers = 2**62
    with entity(numbers, numbers + 1, 8) as one:
        done = one.put(0, 0, numbers + 1, b"s" * 255, b"d" * 255, bytes(4_000), messages=(b"m" * 255,) * 4)
        lengths = []
        for _ in range(5):
            lengths += [len(octets) for octets in one.pump(done.source, done.seq).pdus]
        want(lengths[:2], [1_574, 1_432])
    header = (TOP / "include" / "cfdp.h").read_text()
    want(re.search(r"#define CFDP_PDU_MAX (\d+)", header)[1], str(cfdp.PDU_MAX))


@case
def memory_for_pdus_runs_out():
    with entity() as one:
        done = one.put(0, 0, 1, b"a", b"b", b"c")
        copied, one._copied = one._copied, lambda *_: (_ for _ in ()).throw(MemoryError())
        why = refused(cfdp.OutOfMemory, lambda: one.pump(done.source, done.seq))
        one._copied = copied
        want((why.lost, why.done.pdus, why.done.seq), (1, (), done.seq))
        want(isinstance(why, MemoryError), True)


@case
def users_remotes_and_where_pdus_go():
    with entity(users='[[user]]\nname = "night"\n') as one, entity(1, 2) as other:
        want((one.users, one.user_names), (2, ("ops", "night")))
        want(one.remotes, (Remote(1, 0, "127.0.0.1:7001"),))
        done = put(one)
        pumps = [one.pump(done.source, done.seq) for _ in range(3)]
        want([pump.destinations for pump in pumps], [(1,)] * 3)
        answers = [other.deliver(octets) for pump in pumps for octets in pump.pdus]
        want([answer.destinations for answer in answers], [(), (), (2,)])
    ids = "".join(f'[[remote]]\nid = {number}\naddress = "10.0.0.{number}:{number}"\nack_ms = 1\nnak_ms = 1\ncheck_ms = 1\n'
                  "inactivity_ms = 1\nack_limit = 1\nnak_limit = 1\ncheck_limit = 1\n" for number in (9, 7))
    with Entity(CONFIGURATION.format(id=2, remote=1, octets=1, port=7001, users="") + ids) as one:
        want(one.remotes[1:], (Remote(9, None, "10.0.0.9:9"), Remote(7, None, "10.0.0.7:7")))


@case
def settings_before_the_first_event():
    with entity() as one:
        for call in (lambda: one.set(Setting.CAPACITY, 1_025), lambda: one.set(Setting.CHECK_LIMIT, 0),
                     lambda: one.set_handler(Role.RECV_CLASS_1, Condition.INACTIVITY_DETECTED, Handler.SUSPEND)):
            want(str(refused(cfdp.NotAllowed, call)), "NOT_ALLOWED")
        for call in (lambda: one.set(7, 1), lambda: one.set(Setting.CHECKSUM, 3), lambda: one.set_handler(Role.SEND, 12, Handler.CANCEL),
                     lambda: one.set_handler(4, 7, Handler.CANCEL), lambda: one.set_handler(Role.SEND, 7, 5)):
            refused(ValueError, call)
        refused(OverflowError, lambda: one.set(Setting.FIRST, 2**64))
        one.set(Setting.FIRST, 20)
        one.set(Setting.CHECKSUM, Checksum.NULL)
        one.set(Setting.FIRST, 40)
        one.set_handler(Role.SEND, Condition.POSITIVE_ACK_LIMIT_REACHED, Handler.SUSPEND)
        # a round of numbers is one for each of two sending lanes
        want(put(one).seq, 80)
        end = pumped(one)[0][2]
        want((end[7], end[9:13]), (4, bytes(4)))
        why = refused(cfdp.TooLate, lambda: one.set(Setting.FIRST, 9))
        want((isinstance(why, Error), why.code), (True, cfdp.TOO_LATE))
        refused(cfdp.TooLate, lambda: one.set_handler(Role.SEND, 7, Handler.CANCEL))


@case
def the_handler_that_was_set():
    ends = (Kind.FINISHED, Kind.SUSPENDED, Kind.ABANDONED)
    for handler, kind in zip((Handler.CANCEL, Handler.SUSPEND, Handler.ABANDON), ends):
        with entity() as one:
            one.set(Setting.ACK_LIMIT, 1)
            one.set_handler(Role.SEND, Condition.POSITIVE_ACK_LIMIT_REACHED, handler)
            done = put(one)
            timers = [timer for _ in range(3) for timer in one.pump(done.source, done.seq).timers]
            # a transaction that is cancelled ends where the EOF that says so isn't acknowledged, either
            while armed := [timer for timer in timers if timer.kind == TimerKind.ACK and timer.arms]:
                timers = one.timer(armed[0]).timers
            told = [said.kind for bundle in one.bundles(0) for said in bundle.indications if said.kind in ends]
            want((handler, told), (handler, [kind]))


@case
def transactions_that_run():
    with entity(users='[[user]]\nname = "night"\n') as one, entity(1, 2) as other:
        want((one.lanes(0), one.lanes(1), one.lanes(2), one.transactions), (2 + LANES_IN, 2, 0, ()))
        first, second = put(one), put(one, lane=1, file=b"abcdef")
        shown = one.transactions
        want([(it.user, it.lane, it.source, it.seq, it.peer, it.sends, it.size, it.phase) for it in shown],
             [(0, 0, 2, first.seq, 1, True, 3, Phase.ACTIVE), (0, 1, 2, second.seq, 1, True, 6, Phase.ACTIVE)])
        want((shown[0].service, shown[0].progress, one.running(1, 0), one.running(7, 7)), (Class.ACKNOWLEDGED, 0, None, None))
        one.request(0, Request.SUSPEND, second.source, second.seq)
        want(one.running(0, 1).phase, Phase.SUSPENDED)
        metadata, octets = [one.pump(first.source, first.seq).pdus[0] for _ in range(2)]
        want(one.running(0, 0).progress, 3)
        other.deliver(octets)
        (got,) = other.transactions
        want((got.user, got.source, got.seq, got.peer, got.sends, got.size, got.progress), (0, 2, first.seq, 2, False, None, 3))
        want(got.lane >= other.put_lanes, True)
        other.deliver(metadata)
        want(other.transactions[0].size, 3)
        one.request(0, Request.ABANDON, second.source, second.seq)
        want([it.seq for it in one.transactions], [first.seq])
        for call in (lambda: one.lanes(-1), lambda: one.running(0, 2**64)):
            refused(OverflowError, call)


@case
def the_response_to_an_old_transaction_has_a_destination():
    with entity() as one, entity(1, 2) as other:
        done = put(one)
        for _ in range(3):
            for octets in one.pump(done.source, done.seq).pdus:
                left = other.deliver(octets)
        left = other.stored(left.deposit, True) if left.deposit else left
        finished = [octets for octets in left.pdus if octets[7] == 5]
        want(len(finished), 1)
        for octets in left.pdus:
            ended = one.deliver(octets)
        want(ended.destinations, (1,))
        why = refused(Refusal, lambda: one.deliver(finished[0]))
        want((why.name, len(why.pdus), why.destinations), ("OldTransaction", 1, (1,)))


@case
def faults_of_configurations_in_words():
    good = CONFIGURATION.format(id=2, remote=1, octets=1, port=7001, users="")
    lines = good.splitlines()
    for old, new, fault, place, said in (
            ("segment = 1400", "segment = 14000", 4, "segment", ("[entity]", "`segment`", "14000", "256 to 1400")),
            ("nak_limit = 3", "", 2, "nak_limit", ("[[remote]] number 1, of entity 1", "`nak_limit`", "1 to 255")),
            ("nak_ms = 1000", 'nak_ms = "1"', 3, "nak_ms", ("`nak_ms`", '"1"', "1 to 86400000")),
            ("first = 1", "frist = 1", 5, "entity", ("[entity]", "`frist`", "misspelled")),
            ('user = "ops"', 'user = "opa"', 8, "", ("[[remote]]", '"opa"', "[[user]]")),
            ("[entity]", "[entity", 1, "", ("TOML",))):
        why = refused(cfdp.ConfigurationFault, lambda old=old, new=new: Entity(good.replace(old, new)))
        want((why.fault, why.place), (fault, place))
        want([word for word in said if word not in str(why)], [])
        if new:
            want(f"line {lines.index(old) + 1}: " in str(why), True)
        want(str(why), why.sentence)
    why = refused(cfdp.ConfigurationFault, lambda: Entity(b"# \xff"))
    want((why.fault, str(why)), (1, "octet 2 is not UTF-8"))


@case
def lanes_take_turns():
    with entity() as one:
        want(one.next_pump(), None)
        first, second = put(one, 0, bytes(4_000)), put(one, 1, bytes(4_000))
        want(one.next_pump(), (2, first.seq))
        want(one.next_pump(), (2, first.seq))
        pdus, turns = pumped(one)
        want((len(pdus), turns), (10, [first.seq, second.seq] * 5))
        want(one.next_pump(), None)


@case
def whose_turn_it_is_after_other_events():
    with entity() as one:
        first, second = put(one, 0), put(one, 1)
        one.request(0, Request.SUSPEND, first.source, first.seq)
        want(pumped(one)[1], [second.seq] * 3)
        one.request(0, Request.RESUME, first.source, first.seq)
        want(pumped(one)[1], [first.seq] * 3)
        # a refused event of another transaction wakes none, and a NAK wakes the one that it is for
        refused(Refusal, lambda: one.pump(2, 99))
        want(one.next_pump(), None)
        one.deliver(bytes([0x28, 0, 17, 0, 2, first.seq, 1, 8]) + bytes(4) + (3).to_bytes(4, "big") + bytes(4) + (3).to_bytes(4, "big"))
        want(pumped(one)[1], [first.seq])


@case
def a_full_queue_keeps_its_turn():
    text = CONFIGURATION.format(id=2, remote=1, octets=1, port=7001, users="").replace("capacity = 64", "capacity = 1")
    with Entity(text) as one:
        done = put(one)
        want([len(one.pump(*one.next_pump()).pdus) for _ in range(2)], [1, 1])
        want(refused(Refusal, lambda: one.pump(*one.next_pump())).name, "QueueFull")
        want(one.next_pump(), (2, done.seq))
        want(len(list(one.bundles(0))), 1)
        want(pumped(one)[1], [done.seq])


@case
def time_that_nobody_tells():
    with entity() as one:
        put(one)
        pumped(one)
        want(one.next_deadline(), None)
        # what was started before the first call isn't kept
        want((one.tick(10_000), one.next_deadline(), one.tick(99_000)), (None, None, None))


@case
def timers_that_the_library_keeps():
    with entity() as one:
        want((one.tick(5_000), one.next_deadline()), (None, None))
        done = put(one)
        pdus, _ = pumped(one)
        # Ack runs from the EOF on, for a second
        want((one.next_deadline(), one.tick(5_999), one.next_deadline()), (6_000, None, 6_000))
        again = one.tick(6_001)
        want((again.seq, again.pdus), (done.seq, (pdus[-1],)))
        want((one.tick(6_001), one.next_deadline()), (None, 7_001))
        one.deliver(bytes([0x28, 0, 3, 0, 2, done.seq, 1, 6, 0x40, 0x01]))
        # Inactivity runs from the time that was told last before the event
        want((one.next_deadline() <= 15_001, one.tick(7_001), one.next_deadline()), (True, None, 6_001 + 9_000))


@case
def timers_expire_in_the_order_in_which_they_were_started():
    with entity() as one:
        one.tick(0)
        seqs = [put(one, lane).seq for lane in (1, 0)]
        for seq in seqs:
            for _ in range(3):
                one.pump(2, seq)
        want([one.tick(5_000).seq for _ in range(2)], seqs)
        want(one.tick(5_000), None)


@case
def a_timer_that_is_refused_for_now_goes_back():
    text = CONFIGURATION.format(id=2, remote=1, octets=1, port=7001, users="").replace("capacity = 64", "capacity = 1")
    text = text.replace("ack_limit = 3", "ack_limit = 1") + 'send = { positive_ack_limit = "suspend" }\n'
    with Entity(text) as one:
        one.tick(0)
        done = put(one)
        list(one.bundles(0))
        for _ in range(3):
            one.pump(2, done.seq)
        for _ in range(2):
            want(refused(Refusal, lambda: one.tick(1_000)).name, "QueueFull")
            want(one.next_deadline(), 1_000)
        list(one.bundles(0))
        want(one.tick(1_000).seq, done.seq)
        want([said.kind for bundle in one.bundles(0) for said in bundle.indications], [Kind.SUSPENDED])
        want((one.tick(2_000), one.next_deadline()), (None, None))


@case
def the_loop_of_the_examples():
    import loop
    with socket.socket(socket.AF_INET, socket.SOCK_DGRAM) as first, socket.socket(socket.AF_INET, socket.SOCK_DGRAM) as second:
        for one in (first, second):
            one.bind(("127.0.0.1", 0))
        octets = os.urandom(50_000)
        received = {}
        with entity(2, 1, 1, second.getsockname()[1]) as sender, entity(1, 2, 1, first.getsockname()[1]) as receiver:
            ends = [loop.Loop(sender, first, lambda image: False),
                    loop.Loop(receiver, second, lambda image: received.update({image.destination_name: image.octets}) or True)]
            ends[0].put(0, 0, 1, b"here", b"there", octets)
            threads = [threading.Thread(target=end.run) for end in ends]
            for thread in threads:
                thread.start()
            try:
                until(lambda: any(said.kind == Kind.FINISHED for said in ends[0].told), "the sender's end")
            finally:
                for end in ends:
                    end.stop()
                for thread in threads:
                    thread.join(30)
            finished = next(said for said in ends[0].told if said.kind == Kind.FINISHED)
            want((finished.delivery, finished.status), (cfdp.Delivery.COMPLETE, cfdp.FileStatus.RETAINED))
        want(received, {b"there": octets})


@case
def a_package_from_this_checkout():
    if importlib.util.find_spec("pip") is None:
        raise Skipped("Python has no pip here")
    subprocess.run(["cp", "-r", f"{TOP}/python", "source"], check=True)
    words = [sys.executable, "-m", "pip", "install", "-q", "--no-index", "--target", "there", "./source"]
    run = subprocess.run(words, capture_output=True, text=True, check=False, timeout=300)
    want((run.returncode, run.stderr if run.returncode else ""), (0, ""))
    text = "import cfdp, importlib.metadata as m; print(cfdp.__file__); print(cfdp.__version__, m.version('cfdp'))"
    around = {**os.environ, "PYTHONPATH": "there", "CFDP_LIBRARY": f"{TOP}/build/libcfdp.so.0"}
    run = subprocess.run([sys.executable, "-c", text], capture_output=True, text=True, env=around, check=True, timeout=60)
    path, versions = run.stdout.splitlines()
    want((pathlib.Path(path).resolve().parent.parent.name, versions), ("there", f"{cfdp.__version__} {cfdp.__version__}"))
    want(pathlib.Path("there/cfdp/py.typed").exists(), True)


if __name__ == "__main__":
    run_cases("module")
