"""Measures runs of the script program: seconds, lines and megabytes a second, and peak memory.

usage: bench.py PROGRAM

The scripts are made here, each at one size and at eight times that size: receptions of a large file in both
classes, also with the EOF first and the segments in rising and in falling order; many small receptions in
sequence; files that are put and sent; and datagrams of every kind. Only of those datagrams may any be refused.
Below each pair its bars are printed, for a machine with four processors and no other work: for speed, and for
how time and memory grow.
"""

import fcntl
import os
import platform
import shutil
import subprocess
import sys
import tempfile
import termios
import time

from bars import end, show_bar

# The smaller sizes: octets of a file, receptions, files that are put, segments, datagrams.
LARGE = 512 * 1024
SMALL = 12_500
PUTS = 8
SEGMENTS = 2_048
MIXED = 25_000

# How often a script runs at least, and for how many seconds in all: a short one, whose time varies more, runs more
# often.
RUNS = 5
SECONDS = 10.0

# A line of a script has at most 131,200 octets, so the largest file that a script can put has 65,590: two
# hexadecimal digits for each octet, after the 20 octets `put alice 0 1 1 a b `. In the reference
# configuration it is sent in segments of 256 octets.
PUT_OCTETS = 65_590
PART = 256

# The bars: how many times as long a script of eight times the size may take; the peak memory besides four
# times the file, in octets; how much more memory eight times as many receptions in sequence may take;
# and how many times as long segments in falling order may take as in rising order.
GROWTH = 10
MEMORY = 16_000_000
LEFT_BEHIND = 500_000
FALLING = 3


def checksum(octets):
    """The modular checksum of a file."""
    padded = octets + bytes(-len(octets) % 4)
    words = (int.from_bytes(padded[i : i + 4], "big") for i in range(0, len(padded), 4))
    return sum(words) % 2**32


def pdu(first, sequence, field):
    """A PDU from entity 1 to entity 2; a sequence number above 255 has four octets, the IDs have one."""
    digits, lengths = (4, 3) if sequence > 255 else (1, 0)
    ids = b"\x01" + sequence.to_bytes(digits, "big") + b"\x02"
    return "pdu " + (bytes([first]) + len(field).to_bytes(2, "big") + bytes([lengths]) + ids + field).hex()


def file_of(size):
    """The octets of a file."""
    return bytes((i * 7 + i // 251) % 256 for i in range(size))


class Reception:
    """The lines of one reception in class 1 or 2; the first octet of a PDU has one more bit set in class 1."""

    def __init__(self, number, sequence, octets):
        self.bit = 4 if number == 1 else 0
        self.sequence = sequence
        self.octets = octets
        self.size = len(octets).to_bytes(4, "big")

    def metadata(self):
        return pdu(0x20 + self.bit, self.sequence, b"\x07\x00" + self.size + b"\x01a\x01b")

    def part(self, offset, octets):
        field = offset.to_bytes(4, "big") + self.octets[offset : offset + octets]
        return pdu(0x30 + self.bit, self.sequence, field)

    def eof(self):
        return pdu(0x20 + self.bit, self.sequence, b"\x04\x00" + checksum(self.octets).to_bytes(4, "big") + self.size)

    def kept(self, stamp):
        """The store keeps the file; in class 2 the sender acknowledges the end."""
        yield f"stored 1 {self.sequence} {stamp} yes"
        if self.bit == 0:
            yield pdu(0x20, self.sequence, b"\x06\x51\x02")


def large(number, size, octets):
    """One reception in order, in segments of this many octets, whose bundles are taken as they come."""
    reception = Reception(number, 5, file_of(size))
    lines = [reception.metadata(), "take alice"]
    for offset in range(0, size, octets):
        lines += [reception.part(offset, octets), "take alice"]
    lines += [reception.eof(), "take alice"]
    return lines + list(reception.kept((size + octets - 1) // octets + 1)) + ["take alice"]


def ended_first(count, falling):
    """One reception in class 2, the EOF and the Metadata before the segments, in rising or falling order."""
    reception = Reception(2, 5, file_of(count * PART))
    lines = [reception.eof(), "take alice", reception.metadata(), "take alice"]
    numbers = range(count - 1, -1, -1) if falling else range(count)
    for number in numbers:
        lines += [reception.part(number * PART, PART), "take alice"]
    return lines + list(reception.kept(count + 1)) + ["take alice"]


def small(count):
    """Receptions of three octets in class 2, ten lines each, with rising sequence numbers."""
    lines = []
    for sequence in range(256, 256 + count):
        reception = Reception(2, sequence, b"abc")
        lines += [reception.metadata(), reception.part(0, 3), reception.eof()]
        lines += [*reception.kept(2), *["take alice"] * 5]
    return lines


def puts(count):
    """Files that alice puts in class 1 and sends completely, by turns in both of her lanes."""
    octets = file_of(PUT_OCTETS).hex()
    lines = []
    for number in range(count):
        lane = number % 2
        # A user's lane numbers its transactions from 4 or 6 on, by steps of 4.
        sequence = 4 * (number // 2) + 4 + 2 * lane
        lines.append(f"put alice {lane} 1 1 a b {octets}")
        lines += [f"pump 2 {sequence}"] * ((PUT_OCTETS + PART - 1) // PART + 2)
        lines += ["take alice"] * 2
    return lines


# Data fields of every kind of PDU, with the first octet of the fixed header: EOF with and without a
# fault location, Finished, ACK, Metadata with messages among other options, NAK, Prompt, Keep Alive,
# File Data with and without segment metadata.
FIELDS = [
    (0x20, "04006162630000000003"),
    (0x20, "04f06162630000000003060102"),
    (0x28, "0502"),
    (0x28, "054401036162630601020601ff"),
    (0x20, "065102"),
    (0x24, "07000000000301610162"),
    (0x24, "070f0000000301610162020268690500020121"),
    (0x28, "080000000000000003" + "0000000000000001" * 20),
    (0x20, "0900"),
    (0x28, "0c00000003"),
    (0x34, "00000000" + "5a" * 256),
    (0x34, "02aabb00000010616263"),
]


def mixed(count):
    """Datagrams of every kind, with IDs and sequence numbers of 1 to 8 octets."""
    for number in range(count):
        first, field = FIELDS[number % len(FIELDS)]
        entity, sequence = 1 + number % 8, 1 + number // 8 % 8
        metadata = 8 if field.startswith("02aabb") else 0
        lengths = 16 * (entity - 1) + (sequence - 1) + metadata
        ids = (1).to_bytes(entity, "big") + bytes(sequence) + (2).to_bytes(entity, "big")
        header = bytes([first]) + (len(field) // 2).to_bytes(2, "big") + bytes([lengths]) + ids
        yield "pdu " + header.hex() + field


KINDS = {
    "class 1 by 256": lambda size: large(1, size, 256),
    "class 1 by 1,400": lambda size: large(1, size, 1400),
    "class 2 by 1,400": lambda size: large(2, size, 1400),
    "small": small,
    "puts": puts,
    "rising": lambda count: ended_first(count, False),
    "falling": lambda count: ended_first(count, True),
    "mixed": mixed,
}

# For each kind: its smaller size, what it counts, how many octets the largest file of each has, and
# the least speed at the larger size, by its unit.
MEASURED = {
    "class 1 by 256": (LARGE, "octets", 1, None),
    "class 1 by 1,400": (LARGE, "octets", 1, (150, "MB/s")),
    "class 2 by 1,400": (LARGE, "octets", 1, (150, "MB/s")),
    "small": (SMALL, "receptions", 0, (1_200_000, "lines/s")),
    "puts": (PUTS, "files", 0, (150, "MB/s printed")),
    "rising": (SEGMENTS, "parts", PART, None),
    "falling": (SEGMENTS, "parts", PART, None),
    "mixed": (MIXED, "datagrams", 0, (1_000_000, "lines/s")),
}


def make(kind, size):
    """Prints a script, in a process of its own, so that the measuring one stays small."""
    sys.stdout.write("\n".join(KINDS[kind](size)) + "\n")


def run(program, script, output):
    """Runs a script, and gives the seconds that it took."""
    with open(script, "rb") as lines, open(output, "wb") as answers:
        start = time.perf_counter()
        child = subprocess.Popen([program], stdin=lines, stdout=answers)
        status = child.wait()
        seconds = time.perf_counter() - start
    if status != 0:
        sys.exit(f"{program} ended with status {status}")
    return seconds


def best(program, script, output):
    """Answers the least seconds of some runs of a script."""
    seconds = [run(program, script, output) for _ in range(RUNS)]
    while sum(seconds) < SECONDS:
        seconds.append(run(program, script, output))
    return min(seconds)


def peak(program, script):
    """Runs a script, and answers the peak memory in octets: what the kernel tells when all is read."""
    child = subprocess.Popen([program], stdin=subprocess.PIPE, stdout=subprocess.DEVNULL)
    with open(script, "rb") as lines:
        shutil.copyfileobj(lines, child.stdin)
    child.stdin.flush()
    while fcntl.ioctl(child.stdin, termios.FIONREAD, b"\0" * 4) != b"\0" * 4:
        time.sleep(0.01)
    time.sleep(0.1)
    with open(f"/proc/{child.pid}/status", encoding="ascii") as status:
        told = next(line for line in status if line.startswith("VmHWM:"))
    child.stdin.close()
    child.wait()
    return int(told.split()[1]) * 1024


def refusals(output):
    """How many lines of an output tell of a refusal."""
    with open(output, "rb") as lines:
        return sum(1 for line in lines if line.startswith(b"refused"))


class Row:
    """What the best of some runs of one script took."""

    def __init__(self, program, kind, size):
        with tempfile.TemporaryDirectory() as folder:
            script, output = os.path.join(folder, "script"), os.path.join(folder, "output")
            with open(script, "wb") as lines:
                subprocess.run([sys.executable, __file__, "make", kind, str(size)], stdout=lines, check=True)
            self.octets = os.path.getsize(script)
            with open(script, "rb") as lines:
                self.count = sum(1 for _ in lines)
            self.seconds = best(program, script, output)
            self.printed = os.path.getsize(output)
            if kind != "mixed" and refusals(output) > 0:
                sys.exit(f"{kind}: {refusals(output)} lines of {self.count} were refused")
            self.memory = peak(program, script)
        self.speeds = {
            "MB/s": self.octets / 1e6 / self.seconds,
            "MB/s printed": self.printed / 1e6 / self.seconds,
            "lines/s": self.count / self.seconds,
        }

    def show(self, name):
        """Prints the row."""
        print(
            f"{name:<34} {self.count:>9,} lines {self.octets / 1e6:>6.2f} MB, {self.printed / 1e6:>6.2f} MB printed"
            f" {self.seconds:>6.3f} s {self.speeds['lines/s']:>10,.0f} lines/s {self.speeds['MB/s']:>6.1f} MB/s"
            f" {self.memory / 1e6:>5.1f} MB peak",
            flush=True,
        )


def stolen():
    """Answers the seconds that the machine's host took from its processors so far, or none where the kernel doesn't tell."""
    try:
        with open("/proc/stat", encoding="ascii") as times:
            return int(times.readline().split()[8]) / os.sysconf("SC_CLK_TCK")
    except (OSError, IndexError, ValueError):
        return 0.0


def compare(program, kind):
    """Measures one size and eight times that size, prints the bars, and answers the seconds of the larger."""
    size, unit, octets, speed = MEASURED[kind]
    before = stolen()
    one = Row(program, kind, size)
    one.show(f"{kind}: {size:,} {unit}")
    eight = Row(program, kind, 8 * size)
    eight.show(f"{kind}: {8 * size:,} {unit}")
    lost = stolen() - before
    if lost >= 0.1:
        print(f"  the host took {lost:.1f} seconds from the processors meanwhile", flush=True)
    growth = eight.seconds / one.seconds
    show_bar(f"eight times the size takes {growth:.1f} times as long, at most {GROWTH}", growth <= GROWTH)
    most = MEMORY + 4 * 8 * size * octets
    show_bar(f"{eight.memory / 1e6:.1f} MB of memory, at most {most / 1e6:.1f}", eight.memory <= most)
    if octets == 0:
        more = eight.memory - one.memory
        show_bar(f"{more / 1e6:.2f} MB more than one eighth takes, at most {LEFT_BEHIND / 1e6}", more <= LEFT_BEHIND)
    if speed:
        least, unit = speed
        show_bar(f"{eight.speeds[unit]:,.0f} {unit}, at least {least:,}", eight.speeds[unit] >= least)
    return eight.seconds


def main():
    if sys.argv[1] == "make":
        make(sys.argv[2], int(sys.argv[3]))
        return
    program = sys.argv[1]
    print(f"machine: {platform.machine()}, {os.cpu_count()} processors, {platform.system()}")
    seconds = {kind: compare(program, kind) for kind in KINDS}
    ratio = seconds["falling"] / seconds["rising"]
    show_bar(f"falling parts take {ratio:.1f} times as long as rising ones, at most {FALLING}", ratio <= FALLING)
    end()


if __name__ == "__main__":
    main()
