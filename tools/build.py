#!/usr/bin/env python3
"""Proves crates and all that they depend on, and builds those that are programs, on all processors.

usage: tools/build.py [--edits] CRATE..

The crates are copied into a folder of their own ($BINESUNSET_BUILD, or ~/.cache/binesunset), and `rt ci` proves and builds them
there, with their tests. --edits tries their must-fail edits too. Programs go into their crates' folders out/. If nothing has
changed since the last build, its result is used again.
"""
import hashlib
import os
import pathlib
import re
import shutil
import subprocess
import sys

TOP = pathlib.Path(__file__).resolve().parent.parent
ROOM = pathlib.Path(os.environ.get("BINESUNSET_BUILD") or pathlib.Path.home() / ".cache" / "binesunset")


def crates():
    """The lines of crates.txt, by crate, and what each crate stands on."""
    lines, uses = {}, {}
    for line in (TOP / "crates.txt").read_text().splitlines():
        head, colon, below = line.partition(":")
        if colon and not line.startswith("#"):
            name = head.split()[0]
            lines[name], uses[name] = line, below.split()
    return lines, uses


def needed(named, uses):
    """The named crates and all that they depend on, of the crates of this repository."""
    left, found = list(named), set()
    while left:
        name = left.pop()
        if name in uses and name not in found:
            found.add(name)
            left += uses[name]
    return found


def sources(name, left_out):
    """The files of a crate, but for some of its folders, as paths below the crate's folder."""
    folder = TOP / "crates" / name
    paths = (path.relative_to(folder) for path in folder.rglob("*") if path.is_file())
    return sorted(path for path in paths if path.parts[0] not in left_out)


def sum_of(names, lines, left_out):
    """A sum over everything that the result is made of, the kit included."""
    found = hashlib.sha256(subprocess.run(["rt", "version"], stdout=subprocess.PIPE, check=True).stdout)
    for name in sorted(names):
        found.update(lines[name].encode())
        for path in sources(name, left_out):
            found.update(f"\n{name}/{path}\n".encode() + (TOP / "crates" / name / path).read_bytes())
    return found.hexdigest()


def copy(room, names, lines, left_out):
    """Copies the crates into a new folder."""
    shutil.rmtree(room, ignore_errors=True)
    for name in names:
        for path in sources(name, left_out):
            to = room / "crates" / name / path
            to.parent.mkdir(parents=True, exist_ok=True)
            shutil.copy2(TOP / "crates" / name / path, to)
    (room / "crates.txt").write_text("".join(lines[name] + "\n" for name in lines if name in names))
    shutil.copy2(TOP / "HANDLES", room / "HANDLES")


def prove(room, names):
    """Proves the crates and builds the programs, and prints the progress."""
    done, printed = 0, []
    with subprocess.Popen(["rt", "ci"], cwd=room, stdin=subprocess.DEVNULL, stdout=subprocess.PIPE, stderr=subprocess.STDOUT,
                          text=True, errors="replace") as run:
        for line in run.stdout:
            printed.append(line)
            if found := re.match(r"rt: (\w+) (?:proved$|is kept: )", line):
                done += 1
                print(f"    {done} of {len(names)} crates: {found[1]}", flush=True)
            elif re.match(r"rt: \w+: (its tests are|trying its must-fail edits)|must-fail ", line):
                print("    " + line[4:].rstrip(), flush=True)
    if run.returncode:
        sys.exit("".join(printed[-200:]) + "tools/build.py: not everything is proved")


def main():
    has_edits = "--edits" in sys.argv[1:]
    named = [word for word in sys.argv[1:] if word != "--edits"]
    lines, uses = crates()
    if not named or any(name not in lines for name in named):
        sys.exit(__doc__)
    names, left_out = needed(named, uses), ("out",) if has_edits else ("out", "must-fail")
    room, made_of = ROOM / "-".join(named), sum_of(names, lines, left_out)
    built = room / "built"
    if not built.exists() or built.read_text() != made_of:
        print(f"Proving {len(names)} crates on all processors.", flush=True)
        copy(room, names, lines, left_out)
        prove(room, names)
        built.write_text(made_of)
    for name in named:
        made = room / "crates" / name / "out" / name
        if made.exists():
            out = TOP / "crates" / name / "out"
            out.mkdir(exist_ok=True)
            shutil.copy2(made, out / name)
            print(f"The program: {(out / name).relative_to(TOP)}", flush=True)


main()
