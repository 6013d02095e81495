#!/usr/bin/env python3
"""What proofs cost: of each crate, along the longest chain of crates, and of each function.

usage: tools/gate_cost.py --watch FILE COMMAND..   runs a command, as `rt ci`, notes what each check takes, and prints the table
       tools/gate_cost.py --times FILE             prints the table of seconds that were noted before
       tools/gate_cost.py CRATE..                  proves crates by `rt check`, from nothing and after a change of one line, and prints
                                                   the seconds of both, and of the functions that take longest

FILE has processor seconds as JSON, each for a crate and what was done: {"gap_list/proof": [CLOCK, PROCESSOR], "queue_tests/tests": ..}.
"""
import json
import os
import pathlib
import re
import shutil
import subprocess
import sys
import time

TOP = pathlib.Path(__file__).resolve().parent.parent
CRATES = TOP / "crates"
FUNCTION = re.compile(r"^\s*(pub(\([a-z]+\))? )?(const )?(unsafe )?fn ", re.MULTILINE)
# What `rt check` prints as a function's proof ends.
CHECKED = re.compile(r"checked (\S+), (\d+) of (\d+)")
TICKS = os.sysconf("SC_CLK_TCK")
MOST_SHOWN = 20


def uses_of_crates():
    """What each crate stands on, by crates.txt."""
    uses = {}
    for line in (TOP / "crates.txt").read_text().splitlines():
        head, colon, below = line.partition(":")
        if colon and not line.startswith("#"):
            uses[head.split()[0]] = below.split()
    return uses


def functions_of(crate):
    return sum(len(FUNCTION.findall(path.read_text())) for path in (CRATES / crate / "src").rglob("*.rt"))


def longest_chain(seconds, uses):
    """The crates of which each stands on the one before, whose proofs take longest together."""
    chains = {}

    def chain_to(crate):
        if crate not in chains:
            below = max((chain_to(one) for one in uses[crate] if one in uses), default=(0.0, []))
            chains[crate] = below[0] + seconds.get(crate, 0.0), [*below[1], crate]
        return chains[crate]

    return max(chain_to(crate) for crate in uses)


def print_table(times):
    """Prints each crate with its functions and processor seconds, the sums, and the longest chain."""
    uses = uses_of_crates()
    sums = {}
    for name, (_, spent) in times.items():
        crate, _, what = name.partition("/")
        sums.setdefault(crate, {}).setdefault(what, 0.0)
        sums[crate][what] += spent
    whole = {what: sum(kinds.get(what, 0.0) for kinds in sums.values()) for what in ("proof", "tests", "edits")}
    shown = [what for what, spent in whole.items() if spent]
    print("".join(f"| {word} " for word in ("Crate", "Functions", *(f"{what.capitalize()}, s" for what in shown), "Each function, s")) + "|")
    print("|---" * (3 + len(shown)) + "|")
    for crate, kinds in sorted(sums.items(), key=lambda one: -sum(one[1].values())):
        count = functions_of(crate) if crate in uses else 0
        each = f"{max(kinds.get('proof', 0.0), kinds.get('tests', 0.0)) / count:.1f}" if count else "-"
        print("".join(f"| {word} " for word in (f"`{crate}`", count, *(f"{kinds.get(what, 0.0):.0f}" for what in shown), each)) + "|")
    lacking = [crate for crate in uses if "proof" not in sums.get(crate, {})]
    print(f"\nProcessor minutes: {' '.join(f'{what} {spent / 60:.1f}' for what, spent in whole.items())}, all {sum(whole.values()) / 60:.1f}")
    length, chain = longest_chain({crate: kinds.get("proof", 0.0) for crate, kinds in sums.items()}, uses)
    print(f"The longest chain: {length / 60:.1f} processor minutes, {' '.join(chain)}")
    if lacking:
        print(f"Not noted: {len(lacking)} crates, {' '.join(lacking[:10])} ..")


def checks_below(root):
    """The running checks among the processes below one: process, crate, what is done, and the processor seconds so far."""
    rows = {}
    for name in filter(str.isdigit, os.listdir("/proc")):
        try:
            fields = pathlib.Path("/proc", name, "stat").read_text().rsplit(")", 1)[1].split()
            words = pathlib.Path("/proc", name, "cmdline").read_bytes().decode(errors="replace").split("\0")
            rows[int(name)] = int(fields[1]), words, sum(map(int, fields[11:15])) / TICKS, os.readlink(f"/proc/{name}/cwd")
        except OSError:
            continue
    for process, (_, words, spent, folder) in rows.items():
        if not words[0].endswith("/rattle") or "--crate-name" not in words or words[1] not in ("build", "check"):
            continue
        above = process
        while above in rows and above != root:
            above = rows[above][0]
        if above == root:
            what = "edits" if "edit" in folder else "tests" if "--test" in words else "proof"
            yield process, f"{words[words.index('--crate-name') + 1]}/{what}", spent


def watch(path, command):
    """Runs a command, and notes what each check below it takes, as far as the system shows that twice a second."""
    seen = {}
    with subprocess.Popen(command, cwd=TOP, stdin=subprocess.DEVNULL) as run:
        while run.poll() is None:
            now = time.monotonic()
            for process, name, spent in checks_below(run.pid):
                begun = seen.get((process, name), (now, now, 0.0))[0]
                seen[process, name] = begun, now, spent
            time.sleep(0.5)
    times = {}
    for (_, name), (begun, last, spent) in seen.items():
        clock, processor = times.get(name, (0.0, 0.0))
        times[name] = round(clock + last - begun, 1), round(processor + spent, 1)
    pathlib.Path(path).write_text(json.dumps(times, indent=0) + "\n")
    print_table(times)
    return run.returncode


def check(crate):
    """Proves a crate by one job; gives the seconds of the clock, those of each function, and whether it is proved."""
    begun = last = time.monotonic()
    functions = {}
    with subprocess.Popen(["rt", "check", "--jobs", "1"], cwd=CRATES / crate, stdin=subprocess.DEVNULL, stdout=subprocess.PIPE,
                          stderr=subprocess.STDOUT, text=True, errors="replace") as run:
        for line in run.stdout:
            for found in CHECKED.finditer(line):
                now = time.monotonic()
                functions[found[1]] = now - last
                last = now
    return time.monotonic() - begun, functions, run.returncode == 0


def measure(crate):
    """Proves a crate from nothing, and again with one more line in it, which is taken out afterwards."""
    kept, aside, root = CRATES / crate / "out", CRATES / crate / "out.aside", CRATES / crate / "src" / "lib.rt"
    root = root if root.exists() else root.with_name("main.rt")
    # the libraries below are built first, which is no part of what is measured
    check(crate)
    text = root.read_text()
    try:
        kept.rename(aside)
        whole, functions, is_proved = check(crate)
        root.write_text(text + "// one more line\n")
        changed, _, _ = check(crate)
    finally:
        root.write_text(text)
        if kept.exists():
            shutil.rmtree(aside, ignore_errors=True)
        else:
            aside.rename(kept)
    print(f"{crate}: {whole:.0f} s from nothing, {changed:.0f} s after a change of one line, {functions_of(crate)} functions"
          f"{'' if is_proved else '; NOT PROVED'}")
    first = next(iter(functions), None)
    for name, seconds in sorted(functions.items(), key=lambda one: -one[1])[:MOST_SHOWN]:
        print(f"  {seconds:7.1f} s  {name}{', with what the check reads before' if name == first else ''}")


def main():
    words = sys.argv[1:]
    if words[:1] == ["--watch"] and len(words) > 2:
        sys.exit(watch(words[1], words[2:]))
    if words[:1] == ["--times"] and len(words) == 2:
        print_table(json.loads(pathlib.Path(words[1]).read_text()))
    elif words and not words[0].startswith("-"):
        for crate in words:
            measure(crate)
    else:
        sys.exit(__doc__)


main()
