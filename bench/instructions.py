"""Counts the instructions that large files and small receptions take, which don't vary, and the peak memory of the large ones,
and tells the sizes of the values that each datagram moves.

usage: instructions.py SCRIPT_PROGRAM BENCHES

Each row runs at one size and at four times that size under valgrind, which counts what a run executes. A line of a
script can put a file of 65,590 octets at most, so many puts stand for a large one there, and a sender's code sends the
large one in `benches`.
"""

import os
import subprocess
import sys
import tempfile

import bars
import bench

MIB = 1024 * 1024
SEGMENT = 256

# How many times as many instructions four times the size may take.
GROWTH = 4.5

# The memory that receptions of 16 MiB may take, in octets, by the kind of script.
MEMORY = {"class 2 by 1,400": 26_000_000, "class 1 by 256": 42_000_000}

# The octets that a value of each type may have.
SIZES = {"event": 120, "pdu": 96, "indication": 40, "refused": 24, "plan": 256}

# An octet at a great offset and one at offset 0, how many receptions take one each, and how many times as many instructions
# the great offset may take.
FAR, NEAR, CORES = 16_777_214, 0, 1_000
FARTHER = 3.0

# The number of small receptions, in sequence, and how many instructions they may take.
RECEPTIONS = 5_000
BEFORE = 175_000_000


def count(command, script=None):
    """The instructions of a run."""
    with tempfile.TemporaryDirectory() as folder:
        out = os.path.join(folder, "out")
        tool = ["valgrind", "--tool=callgrind", f"--callgrind-out-file={out}"]
        with open(script or os.devnull, "rb") as lines:
            subprocess.run(
                tool + command, stdin=lines, stdout=subprocess.DEVNULL, stderr=subprocess.DEVNULL, check=True
            )
        with open(out, encoding="utf-8", errors="replace") as told:
            return next(int(line.split()[1]) for line in told if line.startswith(("summary:", "totals:")))


def count_script(program, kind, size):
    """The instructions of a script, and its peak memory."""
    with tempfile.TemporaryDirectory() as folder:
        script = os.path.join(folder, "script")
        with open(script, "wb") as lines:
            subprocess.run([sys.executable, bench.__file__, "make", kind, str(size)], stdout=lines, check=True)
        return count([program], script), bench.peak(program, script)


def main():
    program, benches = sys.argv[1:3]
    if not bars.has_tool("valgrind", "instructions are not counted"):
        bars.end()
    for name, most in SIZES.items():
        octets = int(subprocess.run([benches, f"size-of-{name}", "0"], capture_output=True, check=True).stdout)
        bars.show_bar(f"a value of the type {name} has {octets} octets, at most {most}", octets <= most)
    far, near = [count([benches, "far-octets", str(offset), str(CORES)]) for offset in (FAR, NEAR)]
    print(f"{CORES:,} receptions of an octet that are cancelled: at offset {FAR:,} {far:,} instructions, at {NEAR} {near:,}", flush=True)
    bars.show_bar(f"the great offset takes {far / near:.2f} times as many, at most {FARTHER}", far / near <= FARTHER)
    for kind, memory in MEMORY.items():
        (small, _), (large, held) = [count_script(program, kind, size) for size in (4 * MIB, 16 * MIB)]
        print(f"{kind}: 4 MiB {small:,} instructions, 16 MiB {large:,}, {held / 1e6:.1f} MB", flush=True)
        bars.show_bar(f"four times the size takes {large / small:.2f} times as many, at most {GROWTH}", large / small <= GROWTH)
        bars.show_bar(f"{held / 1e6:.1f} MB of memory, at most {memory / 1e6:.1f}", held <= memory)
    small, large = [count([benches, "file-sent", str(size // SEGMENT)]) for size in (4 * MIB, 16 * MIB)]
    print(f"a file that is sent: 4 MiB {small:,} instructions, 16 MiB {large:,}", flush=True)
    bars.show_bar(f"four times the size takes {large / small:.2f} times as many, at most {GROWTH}", large / small <= GROWTH)
    (small, _), (large, _) = [count_script(program, "puts", files) for files in (64, 256)]
    print(f"files of 65,590 octets that are put: 64 of them {small:,} instructions, 256 of them {large:,}", flush=True)
    bars.show_bar(f"four times as many take {large / small:.2f} times as many, at most {GROWTH}", large / small <= GROWTH)
    taken, _ = count_script(program, "small", RECEPTIONS)
    print(f"{RECEPTIONS:,} small receptions: {taken:,} instructions", flush=True)
    bars.show_bar(f"at most {BEFORE:,}", taken <= BEFORE)
    bars.end()


if __name__ == "__main__":
    main()
