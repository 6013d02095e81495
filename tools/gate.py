#!/usr/bin/env python3
"""The long part of the gate: `rt ci` proves everything from nothing and tries the edits, then tests/run.py runs the scripts with the
built programs. At the end it says what both took, by the clock and of processors.

usage: tools/gate.py
"""
import pathlib
import subprocess
import sys
import time

TOP = pathlib.Path(__file__).resolve().parent.parent
sys.path.insert(0, str(TOP / "tests"))
import run  # noqa: E402


def main():
    begun = time.monotonic()
    proofs = subprocess.run(["rt", "ci"], cwd=TOP, stdin=subprocess.DEVNULL, check=False)
    print(f"rt ci: {(time.monotonic() - begun) / 60:.1f} minutes of the clock, {run.used() / 60:.1f} of processors", flush=True)
    if proofs.returncode:
        sys.exit(proofs.returncode)
    scripts = run.gate()
    print(f"both: {(time.monotonic() - begun) / 60:.1f} minutes of the clock, {run.used() / 60:.1f} of processors; this machine has "
          f"{run.processors()} processors")
    print(scripts.last_line())
    sys.exit(0 if scripts.has_passed() else 1)


main()
