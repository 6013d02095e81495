"""Measures runs of the cores and of the timers at one size and at eight times that size.

usage: cores.py PROGRAM
"""

import os
import platform
import subprocess
import sys
import time

from bars import end, show_bar

# How often a scenario runs at least, and for how many seconds in all: a short one, whose time varies more, runs more
# often.
RUNS = 5
SECONDS = 3.0

# A scenario of the program, its greater size, how many times as long eight times the size may take, and how many
# seconds it may take, if there is such a bar.
SCENARIOS = [
    ("eof-last", 16_384, 10, 0.05),
    ("eof-first-rising", 16_384, 10, None),
    ("eof-first-falling", 16_384, 10, None),
    ("eof-first-mixed", 16_384, 10, None),
    ("single-octets-falling", 30_000, 12, None),
    ("prompts", 10_000, 10, None),
    ("naks", 1_000, 10, None),
    ("naks-of-octets", 1_000, 10, None),
    ("timers", 10_000, 10, None),
]


def run(program, scenario, size):
    """Runs a scenario, and answers its seconds."""
    start = time.perf_counter()
    subprocess.run([program, scenario, str(size)], stdout=subprocess.DEVNULL, check=True)
    return time.perf_counter() - start


def best(program, scenario, size):
    """Answers the least seconds of some runs."""
    seconds = [run(program, scenario, size) for _ in range(RUNS)]
    while sum(seconds) < SECONDS:
        seconds.append(run(program, scenario, size))
    return min(seconds)


def main():
    program = sys.argv[1]
    print(f"machine: {platform.machine()}, {os.cpu_count()} processors, {platform.system()}")
    seconds = {}
    for scenario, size, growth, most in SCENARIOS:
        small, seconds[scenario] = best(program, scenario, size // 8), best(program, scenario, size)
        times = seconds[scenario] / small
        print(f"{scenario:<22} {size // 8:>6,}: {small:.4f} s  {size:>6,}: {seconds[scenario]:.4f} s")
        show_bar(f"eight times the size takes {times:.1f} times as long, at most {growth}", times <= growth)
        if most:
            show_bar(f"{seconds[scenario]:.3f} s, at most {most}", seconds[scenario] <= most)
    slower = seconds["eof-first-rising"] / seconds["eof-last"]
    show_bar(f"the EOF first takes {slower:.1f} times as long as the EOF last, at most 2", slower <= 2)
    end()


if __name__ == "__main__":
    main()
