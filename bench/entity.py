"""Measures how many datagrams a second an entity takes that threads share, each thread at a lane of its own.

usage: entity.py PROGRAM
"""

import os
import platform
import subprocess
import sys
import time

RUNS = 5

# How many files each lane receives, and how many datagrams each file takes.
FILES = 20
DATAGRAMS = 20_002

THREADS = [1, 2, 4]


def run(program, threads):
    """Runs so many threads, and answers the seconds and how many datagrams were taken."""
    start = time.perf_counter()
    words = [program, "deliveries", str(threads), str(FILES)]
    done = subprocess.run(words, stdout=subprocess.PIPE, check=True, text=True)
    return time.perf_counter() - start, int(done.stdout)


def main():
    program = sys.argv[1]
    print(f"machine: {platform.machine()}, {os.cpu_count()} processors, {platform.system()}")
    for threads in THREADS:
        count = threads * FILES * DATAGRAMS
        runs = [run(program, threads) for _ in range(RUNS)]
        if any(taken != count for _, taken in runs):
            sys.exit(f"{threads} threads: not all datagrams were taken")
        least, most = min(runs)[0], max(runs)[0]
        print(
            f"{threads} threads: {count / least:>12,.0f} datagrams of 1,011 octets a second,"
            f" the slowest run {count / most:>12,.0f}"
        )


if __name__ == "__main__":
    main()
