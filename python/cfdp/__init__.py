"""A CFDP entity (CCSDS 727.0-B-5) for programs and test benches, over the proved library libcfdp.so.

    with Entity(configuration) as entity:
        done = entity.deliver(datagram)
        for octets, peer in zip(done.pdus, done.destinations): ...      # to be sent
        if done.deposit: ...                # a received file: entity.image(done.deposit), then entity.stored(..)
        while done := entity.tick(now): ...                             # the same for each timer that has expired
        while txn := entity.next_pump(): entity.pump(*txn)              # and for each PDU of files that are sent
        for bundle in entity.bundles(0): ...

A program with timers of its own never calls `tick`: it starts and stops those of `done.timers`, and calls `timer` for each that expires.

The library has no input and output, starts no thread and reads no clock: the program carries datagrams and runs timers.
Every method may be called from any thread; one call runs at a time. Texts of octets are `bytes`, `bytearray` or
`memoryview`; a number that its field can't hold is an OverflowError. The library is looked for beside this file, in the
`build` folder of the repository, and where the system looks; the variable CFDP_LIBRARY names another one.
"""

from __future__ import annotations

import ctypes
import enum
import operator
import os
import pathlib
import threading
from collections.abc import Iterator
from dataclasses import dataclass, replace
from typing import NamedTuple

__all__ = [
    "PDU_MAX", "Bundle", "Checksum", "Class", "Closed", "Condition", "ConfigurationFault", "Delivery", "Deposit", "Done", "Entity",
    "Error", "FileStatus", "Handler", "Image", "Indication", "Kind", "NotAllowed", "OutOfMemory", "Phase", "Refusal", "Remote",
    "Request", "Role", "Running", "Setting", "Timer", "TimerKind", "TooLate", "Transaction",
]

__version__ = "0.1"

# The version of the library's interface.
VERSION = 1

PDU_MAX = 1600
"""No PDU that an entity sends is longer."""

OK, REFUSED, NOTHING, CLOSED, OPEN, NO_MEMORY, NO_ROOM = 0, 1, 2, -1, -2, -3, -4
BAD_CONFIG, MESSAGE_TOO_LONG, TOO_MANY_MESSAGES, NOT_ALLOWED, TOO_LATE = -7, -10, -11, -13, -14


# ---- the library


class _Handle(ctypes.Structure):
    _fields_ = [("live", ctypes.c_bool), ("at", ctypes.c_void_p)]


class _Done(ctypes.Structure):
    _fields_ = [
        ("source", ctypes.c_uint64), ("seq", ctypes.c_uint64), ("pdus", ctypes.c_size_t), ("timers", ctypes.c_size_t),
        ("refusal", ctypes.c_uint32), ("fault", ctypes.c_uint32), ("deposit", ctypes.c_uint32),
    ]


class _Timer(ctypes.Structure):
    _fields_ = [
        ("source", ctypes.c_uint64), ("seq", ctypes.c_uint64), ("stamp", ctypes.c_uint32), ("ms", ctypes.c_uint32),
        ("kind", ctypes.c_uint32), ("arms", ctypes.c_uint32),
    ]


class _Deposit(ctypes.Structure):
    _fields_ = [("source", ctypes.c_uint64), ("seq", ctypes.c_uint64), ("stamp", ctypes.c_uint32)]


class _Image(ctypes.Structure):
    _fields_ = [
        ("source_name", ctypes.c_size_t), ("destination_name", ctypes.c_size_t), ("octets", ctypes.c_size_t),
        ("refusal", ctypes.c_uint32),
    ]


class _Transaction(ctypes.Structure):
    _fields_ = [("source", ctypes.c_uint64), ("seq", ctypes.c_uint64)]


class _Remote(ctypes.Structure):
    _fields_ = [("id", ctypes.c_uint64), ("user", ctypes.c_size_t)]


class _Running(ctypes.Structure):
    _fields_ = [(name, ctypes.c_uint64) for name in ("source", "seq", "peer", "size")] + [
        (name, ctypes.c_uint32) for name in ("sends", "service", "phase", "progress", "sized", "events")]


class _Bundle(ctypes.Structure):
    _fields_ = [
        ("source", ctypes.c_uint64), ("seq", ctypes.c_uint64), ("user", ctypes.c_size_t), ("lane", ctypes.c_size_t),
        ("indications", ctypes.c_size_t),
    ]


class _Indication(ctypes.Structure):
    _fields_ = [(name, ctypes.c_uint32) for name in
                ("kind", "condition", "delivery", "status", "phase", "offset", "length", "progress")] + [
        ("size", ctypes.c_uint64), ("source", ctypes.c_uint64), ("parts", ctypes.c_size_t)]


_H, _N, _SIZE = ctypes.POINTER(_Handle), ctypes.c_uint64, ctypes.c_size_t
_OCTETS, _COUNT = ctypes.c_char_p, ctypes.POINTER(ctypes.c_size_t)
_IN, _OUT = [_OCTETS, _SIZE], [_OCTETS, _SIZE, _COUNT]
_DONE = ctypes.POINTER(_Done)
_SIGNATURES = {
    "cfdp_open": [_H, *_IN, ctypes.POINTER(ctypes.c_uint32), *_OUT],
    "cfdp_explain": [*_IN, *_OUT],
    "cfdp_close": [_H],
    "cfdp_set": [_H, ctypes.c_uint32, _N],
    "cfdp_set_handler": [_H, ctypes.c_uint32, ctypes.c_uint32, ctypes.c_uint32],
    "cfdp_deliver": [_H, *_IN, _DONE],
    "cfdp_put": [_H, _SIZE, _SIZE, _N, ctypes.c_uint32, ctypes.c_bool, *_IN, *_IN, *_IN, _DONE],
    "cfdp_message": [_H, *_IN],
    "cfdp_message_clear": [_H],
    "cfdp_request": [_H, _SIZE, ctypes.c_uint32, _N, _N, _DONE],
    "cfdp_pump": [_H, _N, _N, _DONE],
    "cfdp_timer": [_H, _N, _N, ctypes.c_uint32, ctypes.c_uint32, _DONE],
    "cfdp_stored": [_H, _N, _N, ctypes.c_uint32, ctypes.c_bool, _DONE],
    "cfdp_pdu": [_H, _SIZE, *_OUT],
    "cfdp_timer_op": [_H, _SIZE, ctypes.POINTER(_Timer)],
    "cfdp_deposit": [_H, ctypes.POINTER(_Deposit)],
    "cfdp_image": [_H, _N, _N, ctypes.c_uint32, ctypes.POINTER(_Image)],
    "cfdp_image_octets": [_H, _SIZE, _SIZE, *_OUT],
    "cfdp_take": [_H, _SIZE, ctypes.POINTER(_Bundle)],
    "cfdp_indication": [_H, _SIZE, ctypes.POINTER(_Indication)],
    "cfdp_octets": [_H, _SIZE, _SIZE, *_OUT],
    "cfdp_tick": [_H, _N, _DONE],
    "cfdp_next_deadline": [_H, ctypes.POINTER(_N)],
    "cfdp_next_pump": [_H, ctypes.POINTER(_Transaction)],
    "cfdp_pdu_destination": [_H, _SIZE, ctypes.POINTER(_N)],
    "cfdp_user_name": [_H, _SIZE, *_OUT],
    "cfdp_remotes": [_H, _COUNT],
    "cfdp_remote": [_H, _SIZE, ctypes.POINTER(_Remote)],
    "cfdp_address": [_H, _N, *_OUT],
    "cfdp_lanes": [_H, _SIZE, _COUNT],
    "cfdp_transaction": [_H, _SIZE, _SIZE, ctypes.POINTER(_Running)],
    "cfdp_users": [_H, _COUNT],
    "cfdp_put_lanes": [_H, _COUNT],
    "cfdp_error_name": [ctypes.c_int32, *_OUT],
    "cfdp_refusal_name": [ctypes.c_uint32, *_OUT],
}


def _load() -> ctypes.CDLL:
    here = pathlib.Path(__file__).resolve().parent
    named = os.environ.get("CFDP_LIBRARY")
    beside = [here / "libcfdp.so.0", here.parents[1] / "build" / "libcfdp.so.0"]
    path = named or next((str(it) for it in beside if it.is_file()), "libcfdp.so.0")
    library = ctypes.CDLL(path)
    library.cfdp_version.argtypes, library.cfdp_version.restype = [], ctypes.c_uint32
    if library.cfdp_version() != VERSION:
        raise ImportError(f"{path} has interface {library.cfdp_version()}, not {VERSION}")
    for name, arguments in _SIGNATURES.items():
        function = getattr(library, name)
        function.argtypes, function.restype = arguments, ctypes.c_int32
    return library


_library = _load()


def _name(function, number: int) -> str:
    """The name of a code or of a refusal."""
    buffer, length = ctypes.create_string_buffer(32), ctypes.c_size_t()
    code = function(number, buffer, len(buffer), ctypes.byref(length))
    return buffer.raw[: length.value].decode("ascii") if code == OK else str(number)


def _explained(text: bytes) -> str:
    """Why a configuration is refused."""
    room = 1_000
    while True:
        buffer, length = ctypes.create_string_buffer(room), ctypes.c_size_t()
        code = _library.cfdp_explain(text, len(text), buffer, room, ctypes.byref(length))
        if code != NO_ROOM:
            break
        room = length.value
    if code == NO_MEMORY:
        raise MemoryError("no memory for what is wrong with a configuration")
    return buffer.raw[: length.value].decode("utf-8") if code == OK else ""


# ---- errors


class Error(Exception):
    """A call was not carried out; `code` is what the library returned."""

    def __init__(self, code: int, text: str | None = None):
        super().__init__(text or _name(_library.cfdp_error_name, code))
        self.code = code


class Closed(Error):
    """The entity is closed."""


class NotAllowed(Error):
    """A setting may not have this value: a number is out of range, or the role doesn't allow the handler for the condition."""


class TooLate(Error):
    """The entity has received an event, and no setting may follow."""


class ConfigurationFault(Error):
    """The configuration was refused: the fault's number, the key or the table where it is, and a sentence that says the line, what
    is found there and what is allowed."""

    def __init__(self, fault: int, place: str, sentence: str):
        super().__init__(BAD_CONFIG, sentence)
        self.fault, self.place, self.sentence = fault, place, sentence


class OutOfMemory(MemoryError):
    """Python had no memory for what an event left. The entity took the event: `done` has the timer operations, the deposit and
    the PDUs that could be copied, and `lost` says how many PDUs could not."""

    def __init__(self, done: Done, lost: int):
        super().__init__(f"no memory for {lost} PDUs of an event that the entity took")
        self.done, self.lost = done, lost


class Refusal(Error):
    """The entity refused an event, which changed nothing.

    `number` and `name` say why, `fault` is the decoding fault of a datagram that isn't a PDU, and `pdus` has the PDU that
    responds to one of an old transaction, if there is one, which goes to the entity in `destinations`.
    """

    def __init__(self, number: int, fault: int = 0, pdus: tuple[bytes, ...] = (), destinations: tuple[int, ...] = ()):
        self.number, self.fault, self.pdus, self.destinations = number, fault, pdus, destinations
        self.name = _name(_library.cfdp_refusal_name, number)
        super().__init__(REFUSED, f"{number} {self.name}" + (f" {fault}" if fault else ""))


# ---- values


class _Number(enum.IntEnum):
    """A number of the standard or of the library, with a name; its text is the number."""

    __str__ = int.__repr__


class Class(_Number):
    """The service class of a transaction."""

    UNACKNOWLEDGED = 1
    ACKNOWLEDGED = 2


class TimerKind(_Number):
    """The timers of a transaction."""

    ACK = 1
    NAK = 2
    CHECK = 3
    INACTIVITY = 4


class Setting(_Number):
    """What can be set before the first event: for how many bundles each user's queue has room, where the numbers of Puts begin (at this
    times the sending lanes of all users together), which expiration of a timer is a fault, and the checksum of sent files."""

    CAPACITY = 1
    FIRST = 2
    ACK_LIMIT = 3
    NAK_LIMIT = 4
    CHECK_LIMIT = 5
    CHECKSUM = 6


class Checksum(_Number):
    """The checksum of files that the entity sends."""

    MODULAR = 0
    NULL = 15


class Role(_Number):
    """The end of a transaction whose handlers are set."""

    SEND = 1
    RECV_CLASS_1 = 2
    RECV_CLASS_2 = 3


class Handler(_Number):
    """What the entity does when a fault is declared."""

    CANCEL = 1
    SUSPEND = 2
    IGNORE = 3
    ABANDON = 4


class Request(_Number):
    """What a user may request of a transaction."""

    CANCEL = 1
    SUSPEND = 2
    RESUME = 3
    REPORT = 4
    ABANDON = 5


class Kind(_Number):
    """The kinds of indications."""

    TRANSACTION = 1
    EOF_SENT = 2
    EOF_RECV = 3
    FINISHED = 4
    METADATA_RECV = 5
    FILE_SEGMENT_RECV = 6
    SUSPENDED = 7
    RESUMED = 8
    REPORT = 9
    FAULT = 10
    ABANDONED = 11


class Condition(_Number):
    """Condition codes of the standard."""

    NO_ERROR = 0
    POSITIVE_ACK_LIMIT_REACHED = 1
    KEEP_ALIVE_LIMIT_REACHED = 2
    INVALID_TRANSMISSION_MODE = 3
    FILESTORE_REJECTION = 4
    FILE_CHECKSUM_FAILURE = 5
    FILE_SIZE_ERROR = 6
    NAK_LIMIT_REACHED = 7
    INACTIVITY_DETECTED = 8
    INVALID_FILE_STRUCTURE = 9
    CHECK_LIMIT_REACHED = 10
    UNSUPPORTED_CHECKSUM_TYPE = 11
    SUSPEND_REQUEST_RECEIVED = 14
    CANCEL_REQUEST_RECEIVED = 15


class Delivery(_Number):
    """Whether the receiver has the whole file."""

    COMPLETE = 0
    INCOMPLETE = 1


class FileStatus(_Number):
    """What the receiver's file store did with the file."""

    DISCARDED = 0
    REJECTED = 1
    RETAINED = 2
    UNREPORTED = 3


class Phase(_Number):
    """Phases of a transaction in a report."""

    ACTIVE = 1
    SUSPENDED = 2
    STORING = 3
    CLOSING = 4


def _known(kind: type[enum.IntEnum], number: int) -> int:
    """The number as a member of its kind; as it is if the kind has no such member."""
    try:
        return kind(number)
    except ValueError:
        return number


@dataclass(frozen=True)
class Timer:
    """An operation on a timer: it is started, to expire after `ms` milliseconds, or stopped."""

    source: int
    seq: int
    kind: TimerKind
    stamp: int
    ms: int
    arms: bool


@dataclass(frozen=True)
class Deposit:
    """A received file that waits for the file store's result."""

    source: int
    seq: int
    stamp: int


@dataclass(frozen=True)
class Image:
    """A received file, with its names at the sender and at the receiver."""

    source_name: bytes
    destination_name: bytes
    octets: bytes


class Transaction(NamedTuple):
    """A transaction: its source entity and its number."""

    source: int
    seq: int


@dataclass(frozen=True)
class Remote:
    """A remote entity of the configuration: its ID, the number of the user that gets its files, if one does, and its address."""

    id: int
    user: int | None
    address: str


@dataclass(frozen=True)
class Running:
    """A transaction that has begun and not ended: the lane in which it runs, the entity at the other end, whether this entity sends the
    file, its class, its phase, the octets in the file (None before a receiver has the Metadata), one more than the greatest offset
    that was sent or received, and how many events it has accepted."""

    user: int
    lane: int
    source: int
    seq: int
    peer: int
    sends: bool
    service: Class
    phase: Phase
    size: int | None
    progress: int
    events: int


@dataclass(frozen=True)
class Done:
    """What an event left: the PDUs to send, the timer operations in order, a file for the file store, and the entity to which
    each PDU goes."""

    source: int
    seq: int
    pdus: tuple[bytes, ...]
    timers: tuple[Timer, ...]
    deposit: Deposit | None
    destinations: tuple[int, ...] = ()


@dataclass(frozen=True)
class Indication:
    """An indication. Fields that its kind does not have are 0 or empty; `phase` is a Phase where there is one."""

    kind: Kind
    condition: int = Condition.NO_ERROR
    delivery: int = Delivery.COMPLETE
    status: int = FileStatus.DISCARDED
    phase: int = 0
    offset: int = 0
    length: int = 0
    progress: int = 0
    size: int = 0
    source: int = 0
    source_name: bytes = b""
    destination_name: bytes = b""
    messages: tuple[bytes, ...] = ()


@dataclass(frozen=True)
class Bundle:
    """The indications of one event to one user."""

    user: int
    lane: int
    source: int
    seq: int
    indications: tuple[Indication, ...]


# ---- arguments


def _number(value: int, bits: int, name: str) -> int:
    """A number that a field of so many bits can hold."""
    number = operator.index(value)
    if not 0 <= number < 1 << bits:
        raise OverflowError(f"{name} is {number}, and has to be from 0 to 2^{bits} - 1")
    return number


def _octets(value: bytes | bytearray | memoryview, name: str) -> bytes:
    """A copy of octets."""
    if not isinstance(value, (bytes, bytearray, memoryview)):
        raise TypeError(f"{name} has to be bytes, and is {type(value).__name__}")
    return bytes(value)


def _messages(messages: tuple[bytes, ...]) -> list[bytes]:
    """Messages that a Put may have."""
    if isinstance(messages, (bytes, bytearray, memoryview, str)):
        raise TypeError("messages have to be a sequence of bytes")
    copied = [_octets(message, "a message") for message in messages]
    if len(copied) > 4:
        raise Error(TOO_MANY_MESSAGES)
    if any(len(message) > 255 for message in copied):
        raise Error(MESSAGE_TOO_LONG)
    return copied


_SIZE_BITS = 8 * ctypes.sizeof(ctypes.c_size_t)


# ---- the entity


class Entity:
    """An entity, by its configuration: a text in TOML.

    Raises ConfigurationFault if the configuration is refused, and MemoryError if memory runs out. Methods raise
    Refusal if the entity refuses an event, and Closed after `close`. An entity can't be copied.
    """

    def __init__(self, configuration: str | bytes):
        self._lock = threading.RLock()
        self._handle = _Handle()
        self._room = ctypes.create_string_buffer(PDU_MAX)
        text = configuration.encode() if isinstance(configuration, str) else _octets(configuration, "the configuration")
        fault, place, length = ctypes.c_uint32(), ctypes.create_string_buffer(32), ctypes.c_size_t()
        code = _library.cfdp_open(self._handle, text, len(text), fault, place, len(place), length)
        if code == BAD_CONFIG:
            raise ConfigurationFault(fault.value, place.raw[: length.value].decode("ascii"), _explained(text))
        self._check(code)

    def __enter__(self) -> Entity:
        return self

    def __exit__(self, *_: object) -> None:
        self.close()

    def __del__(self) -> None:
        if hasattr(self, "_room"):
            self.close()

    def __reduce__(self):
        raise TypeError("an entity can't be copied")

    def close(self) -> None:
        """Frees the entity. A second call does nothing."""
        with self._lock:
            _library.cfdp_close(self._handle)

    @staticmethod
    def _check(code: int) -> int:
        if code == NO_MEMORY:
            raise MemoryError("the entity has no memory")
        if code < 0:
            raise {CLOSED: Closed, NOT_ALLOWED: NotAllowed, TOO_LATE: TooLate}.get(code, Error)(code)
        return code

    def _copied(self, function, *before: int) -> bytes | None:
        """The octets that a call copies, or None if there are none."""
        length = ctypes.c_size_t()
        while True:
            code = function(self._handle, *before, self._room, len(self._room), ctypes.byref(length))
            if code != NO_ROOM:
                break
            self._room = ctypes.create_string_buffer(length.value)
        return None if self._check(code) == NOTHING else self._room.raw[: length.value]

    def _pdu(self, index: int) -> tuple[bytes, int]:
        """A PDU, and the entity to which it goes."""
        destination = ctypes.c_uint64()
        octets = self._copied(_library.cfdp_pdu, index) or b""
        self._check(_library.cfdp_pdu_destination(self._handle, index, ctypes.byref(destination)))
        return octets, destination.value

    def _pdus_that_fit(self, count: int) -> list[tuple[bytes, int]]:
        """The PDUs for which Python has memory."""
        found = []
        for index in range(count):
            try:
                found.append(self._pdu(index))
            except MemoryError:
                pass
        return found

    def _timers(self, count: int) -> Iterator[Timer]:
        op = _Timer()
        for index in range(count):
            self._check(_library.cfdp_timer_op(self._handle, index, op))
            yield Timer(op.source, op.seq, TimerKind(op.kind), op.stamp, op.ms, bool(op.arms))

    def _told(self, function, *arguments: object) -> Done:
        """Passes an event, and collects what it left."""
        done = _Done()
        with self._lock:
            return self._left(self._check(function(self._handle, *arguments, done)), done)

    def _left(self, code: int, done: _Done) -> Done:
        """What an event left: first what is small, so that it isn't lost if there is no memory for the PDUs."""
        if code == REFUSED:
            pdus = [self._pdu(index) for index in range(done.pdus)]
            raise Refusal(done.refusal, done.fault, tuple(octets for octets, _ in pdus), tuple(to for _, to in pdus))
        deposit, found = _Deposit(), None
        if done.deposit:
            self._check(_library.cfdp_deposit(self._handle, deposit))
            found = Deposit(deposit.source, deposit.seq, deposit.stamp)
        left = Done(done.source, done.seq, (), tuple(self._timers(done.timers)), found)
        pdus = self._pdus_that_fit(done.pdus)
        left = replace(left, pdus=tuple(octets for octets, _ in pdus), destinations=tuple(to for _, to in pdus))
        if len(pdus) < done.pdus:
            raise OutOfMemory(left, done.pdus - len(pdus))
        return left

    def set(self, setting: Setting, value: int) -> None:
        """Changes a number of the configuration, for every remote entity. The entity is made anew, so this is for the time before
        its first event: TooLate once it has received one. NotAllowed if the number is out of range."""
        kind, number = Setting(setting), _number(value, 64, "value")
        if kind == Setting.CHECKSUM:
            number = int(Checksum(number))
        with self._lock:
            self._check(_library.cfdp_set(self._handle, int(kind), number))

    def set_handler(self, role: Role, condition: Condition, handler: Handler) -> None:
        """Changes the handler of a condition, likewise. NotAllowed if the role doesn't allow it for that condition."""
        numbers = int(Role(role)), int(Condition(condition)), int(Handler(handler))
        with self._lock:
            self._check(_library.cfdp_set_handler(self._handle, *numbers))

    def deliver(self, datagram: bytes) -> Done:
        """A datagram was received."""
        datagram = _octets(datagram, "a datagram")
        return self._told(_library.cfdp_deliver, datagram, len(datagram))

    def put(self, user: int, lane: int, destination: int, source_name: bytes, destination_name: bytes, file: bytes, *,
            service: Class = Class.ACKNOWLEDGED, closure: bool = False, messages: tuple[bytes, ...] = ()) -> Done:
        """A user sends a file from one of its sending lanes. The PDUs go out one by one, each by a call of `pump`."""
        numbers = [_number(user, _SIZE_BITS, "user"), _number(lane, _SIZE_BITS, "lane"), _number(destination, 64, "destination")]
        kind, said = int(Class(service)), _messages(messages)
        texts = [_octets(source_name, "a source name"), _octets(destination_name, "a destination name"), _octets(file, "a file")]
        with self._lock:
            try:
                for message in said:
                    self._check(_library.cfdp_message(self._handle, message, len(message)))
            except MemoryError:
                _library.cfdp_message_clear(self._handle)
                raise
            return self._told(_library.cfdp_put, *numbers, kind, bool(closure), *[part for text in texts for part in (text, len(text))])

    def request(self, user: int, request: Request, source: int, seq: int) -> Done:
        """A user requests something of its transaction."""
        return self._told(_library.cfdp_request, _number(user, _SIZE_BITS, "user"), int(Request(request)), *self._key(source, seq))

    def pump(self, source: int, seq: int) -> Done:
        """The next PDU of a transaction may be sent."""
        return self._told(_library.cfdp_pump, *self._key(source, seq))

    @staticmethod
    def _key(source: int, seq: int) -> tuple[int, int]:
        return _number(source, 64, "source"), _number(seq, 64, "seq")

    def timer(self, timer: Timer) -> Done:
        """A timer expired that this operation started."""
        stamp = _number(timer.stamp, 32, "stamp")
        return self._told(_library.cfdp_timer, *self._key(timer.source, timer.seq), int(TimerKind(timer.kind)), stamp)

    def tick(self, now: int) -> Done | None:
        """It is `now`, in milliseconds on a clock that never goes back. Passes the first timer that has expired to the entity; None
        if none has. From the first call on, the library keeps the timers of all later events."""
        done, moment = _Done(), _number(now, 64, "now")
        with self._lock:
            code = self._check(_library.cfdp_tick(self._handle, moment, done))
            return None if code == NOTHING else self._left(code, done)

    def next_deadline(self) -> int | None:
        """A time before which no timer expires, of those that the library keeps; None if none runs."""
        moment = ctypes.c_uint64()
        with self._lock:
            code = self._check(_library.cfdp_next_deadline(self._handle, ctypes.byref(moment)))
            return None if code == NOTHING else moment.value

    def next_pump(self) -> Transaction | None:
        """The transaction whose next PDU is to be sent, lane by lane in turn; None if none may have something to send."""
        txn = _Transaction()
        with self._lock:
            code = self._check(_library.cfdp_next_pump(self._handle, txn))
            return None if code == NOTHING else Transaction(txn.source, txn.seq)

    def stored(self, deposit: Deposit, kept: bool) -> Done:
        """The file store reports on a deposit: whether it keeps the file."""
        return self._told(_library.cfdp_stored, *self._waiting(deposit), bool(kept))

    def _waiting(self, deposit: Deposit) -> tuple[int, int, int]:
        return *self._key(deposit.source, deposit.seq), _number(deposit.stamp, 32, "stamp")

    def image(self, deposit: Deposit) -> Image:
        """The file of a deposit that waits."""
        image = _Image()
        with self._lock:
            if self._check(_library.cfdp_image(self._handle, *self._waiting(deposit), image)) == REFUSED:
                raise Refusal(image.refusal)
            lengths = (image.source_name, image.destination_name, image.octets)
            return Image(*(self._image_part(part, length) for part, length in enumerate(lengths)))

    def _image_part(self, part: int, length: int) -> bytes:
        buffer, copied = ctypes.create_string_buffer(max(length, 1)), ctypes.c_size_t()
        self._check(_library.cfdp_image_octets(self._handle, part, 0, buffer, length, copied))
        return buffer.raw[: copied.value]

    def _indication(self, index: int) -> Indication:
        flat = _Indication()
        self._check(_library.cfdp_indication(self._handle, index, flat))
        texts = [self._copied(_library.cfdp_octets, index, part) or b"" for part in range(flat.parts)]
        names = texts[:2] or [b"", b""]
        return Indication(
            Kind(flat.kind), _known(Condition, flat.condition), _known(Delivery, flat.delivery), _known(FileStatus, flat.status),
            _known(Phase, flat.phase), flat.offset, flat.length, flat.progress, flat.size, flat.source, names[0], names[1],
            tuple(texts[2:]))

    def take(self, user: int) -> Bundle | None:
        """Takes the bundle at the front of a user's queue, if one waits."""
        bundle, user = _Bundle(), _number(user, _SIZE_BITS, "user")
        with self._lock:
            if self._check(_library.cfdp_take(self._handle, user, bundle)) == NOTHING:
                return None
            told = tuple(self._indication(index) for index in range(bundle.indications))
            return Bundle(bundle.user, bundle.lane, bundle.source, bundle.seq, told)

    def bundles(self, user: int) -> Iterator[Bundle]:
        """Takes the bundles that wait for a user, one after the other."""
        while (bundle := self.take(user)) is not None:
            yield bundle

    def _count(self, function) -> int:
        count = ctypes.c_size_t()
        with self._lock:
            self._check(function(self._handle, count))
        return count.value

    @property
    def users(self) -> int:
        """The number of users."""
        return self._count(_library.cfdp_users)

    @property
    def put_lanes(self) -> int:
        """The number of sending lanes of each user."""
        return self._count(_library.cfdp_put_lanes)

    @property
    def user_names(self) -> tuple[str, ...]:
        """The names of the users, in the order of their numbers."""
        with self._lock:
            return tuple((self._copied(_library.cfdp_user_name, user) or b"").decode("ascii") for user in range(self.users))

    @property
    def remotes(self) -> tuple[Remote, ...]:
        """The remote entities of the configuration, in its order."""
        with self._lock:
            return tuple(self._remote(place) for place in range(self._count(_library.cfdp_remotes)))

    def lanes(self, user: int) -> int:
        """The number of lanes of a user: first those in which it sends, then those in which it receives; 0 if there is no such user."""
        count, user = ctypes.c_size_t(), _number(user, _SIZE_BITS, "user")
        with self._lock:
            return 0 if self._check(_library.cfdp_lanes(self._handle, user, count)) == NOTHING else count.value

    def running(self, user: int, lane: int) -> Running | None:
        """The transaction that runs in a lane of a user, if one does."""
        it, user, lane = _Running(), _number(user, _SIZE_BITS, "user"), _number(lane, _SIZE_BITS, "lane")
        with self._lock:
            if self._check(_library.cfdp_transaction(self._handle, user, lane, it)) == NOTHING:
                return None
        return Running(user, lane, it.source, it.seq, it.peer, bool(it.sends), Class(it.service), Phase(it.phase),
                       it.size if it.sized else None, it.progress, it.events)

    @property
    def transactions(self) -> tuple[Running, ...]:
        """All transactions that have begun and not ended, by user and lane."""
        with self._lock:
            found = (self.running(user, lane) for user in range(self.users) for lane in range(self.lanes(user)))
            return tuple(one for one in found if one)

    def _remote(self, place: int) -> Remote:
        remote = _Remote()
        self._check(_library.cfdp_remote(self._handle, place, remote))
        address = (self._copied(_library.cfdp_address, remote.id) or b"").decode("ascii")
        return Remote(remote.id, None if remote.user == ctypes.c_size_t(-1).value else remote.user, address)
