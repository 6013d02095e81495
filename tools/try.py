#!/usr/bin/env python3
"""Runs the tests of all crates, or of those that are named, as they stand and with nothing proved, side by side. It is no gate: what
runs may still be refused by a proof.

usage: tools/try.py [CRATE..]
"""
import concurrent.futures
import os
import pathlib
import subprocess
import sys
import time

TOP = pathlib.Path(__file__).resolve().parent.parent


def has_tests(crate):
    return any("#[test]" in path.read_text() for path in (crate / "src").rglob("*.rt"))


def run(crate):
    """Runs the tests of a crate: whether they passed, what they printed, and how many seconds they took."""
    start = time.monotonic()
    run = subprocess.run(["rt", "try", "--test"], cwd=crate, stdin=subprocess.DEVNULL, stdout=subprocess.PIPE,
                         stderr=subprocess.STDOUT, text=True, errors="replace", check=False)
    return run.returncode == 0, run.stdout, time.monotonic() - start


def main():
    named = sys.argv[1:]
    crates = [TOP / "crates" / name for name in named] or sorted(path for path in (TOP / "crates").iterdir() if has_tests(path))
    print(f"Trying the tests of {len(crates)} crates, unproved. `make test` is the gate.", flush=True)
    failed = []
    with concurrent.futures.ThreadPoolExecutor(len(os.sched_getaffinity(0))) as pool:
        runs = {pool.submit(run, crate): crate.name for crate in crates}
        for done, one in enumerate(concurrent.futures.as_completed(runs), 1):
            passed, told, seconds = one.result()
            print(f"    {done} of {len(crates)}: {runs[one]} {'passed' if passed else 'FAILED'}, {seconds:.0f} s", flush=True)
            if not passed:
                failed.append(runs[one])
                print(told[-4_000:], flush=True)
    if failed:
        sys.exit(f"failed: {' '.join(failed)}")


main()
