"""Measures how many bundles a second go through a user's queue: of one thread, and of several.

usage: queues.py PROGRAM
"""

import os
import platform
import subprocess
import sys
import time

RUNS = 5

# A scenario of the program, its lanes, and how many bundles each lane puts in.
SCENARIOS = [
    ("one-thread", 1, 4_096_000),
    ("one-producer", 1, 1_024_000),
    ("four-producers", 4, 256_000),
]

ROOMS = [8, 1_024]


def run(program, scenario, room, count):
    """Runs a scenario, and answers its seconds and how many bundles came."""
    start = time.perf_counter()
    words = [program, scenario, str(room), str(count)]
    done = subprocess.run(words, stdout=subprocess.PIPE, check=True, text=True)
    return time.perf_counter() - start, int(done.stdout)


def main():
    program = sys.argv[1]
    print(f"machine: {platform.machine()}, {os.cpu_count()} processors, {platform.system()}")
    for scenario, lanes, count in SCENARIOS:
        for room in ROOMS:
            runs = [run(program, scenario, room, count) for _ in range(RUNS)]
            if any(came != lanes * count for _, came in runs):
                sys.exit(f"{scenario} {room}: not all bundles came")
            least, most = min(runs)[0], max(runs)[0]
            print(
                f"{scenario:<15} room {room:>5,}: {lanes * count / least:>12,.0f} bundles a second,"
                f" the slowest run {lanes * count / most:>12,.0f}"
            )


if __name__ == "__main__":
    main()
