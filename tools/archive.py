#!/usr/bin/env python3
"""Builds the archive of the library for C, crates/cfdp_c/out/libcfdp_c.a, over the libraries that `rt ci` left in a folder.

usage: tools/archive.py [FOLDER]

The folder is this repository (the default) or one in which tools/build.py proved cfdp_c. The crate cfdp_c itself is checked
once more, since only a proved crate is built. `rt lib` makes the same archive, but proves all crates below anew.
"""
import os
import pathlib
import subprocess
import sys

TOP = pathlib.Path(__file__).resolve().parent.parent
CRATE = "cfdp_c"


def libraries():
    """What each crate stands on, by crates.txt."""
    uses = {}
    for line in (TOP / "crates.txt").read_text().splitlines():
        head, colon, below = line.partition(":")
        if colon and not line.startswith("#"):
            uses[head.split()[0]] = below.split()
    return uses


def below(name, uses):
    """All crates of this repository on which a crate stands, the lowest first."""
    found = {}
    for library in uses[name]:
        if library in uses:
            found.update(below(library, uses))
            found[library] = None
    return found


def main():
    room = pathlib.Path(sys.argv[1] if len(sys.argv) > 1 else TOP).resolve()
    kit = pathlib.Path(subprocess.run(["rt", "doc"], stdout=subprocess.PIPE, text=True, check=True).stdout.split()[0]).parent
    uses = libraries()
    made = {name: room / "crates" / name / "out" / "rlib" for name in below(CRATE, uses)}
    words = [kit / "bin" / "rattle", "build", "--crate-name", CRATE, "src/lib.rt", "-L", f"dependency={kit}/rlibs"]
    for name in ["std", *uses[CRATE]]:
        place = made[name] if name in made else kit / "rlibs"
        words += ["--extern", f"{name}={place}/{name}.rlib"]
    for place in made.values():
        words += ["-L", f"dependency={place}"]
    words += ["--antt-project", kit / "rattle" / "logic" / "antt-project.json", "--logic-built", kit / "logic_built",
              "--links", f"{CRATE}=", "--jobs", str(min(2, os.cpu_count() or 1)), "--crate-type", "staticlib",
              "--toolchain", kit / "toolchain", "-o", f"out/lib{CRATE}.a"]
    folder = room / "crates" / CRATE
    (folder / "out").mkdir(exist_ok=True)
    ran = subprocess.run(words, cwd=folder, stdin=subprocess.DEVNULL, stdout=subprocess.PIPE, stderr=subprocess.STDOUT, text=True,
                         errors="replace", check=False)
    if ran.returncode:
        sys.exit(ran.stdout[-20_000:] + "tools/archive.py: no archive was built")
    if room != TOP:
        out = TOP / "crates" / CRATE / "out"
        out.mkdir(exist_ok=True)
        (out / f"lib{CRATE}.a").write_bytes((folder / "out" / f"lib{CRATE}.a").read_bytes())


main()
