#!/usr/bin/env python3
"""Prints all crates, layer by layer, each with the first paragraph of its README.

usage: tests/crates.py [WORD..]     only those in whose name or paragraph each word is
       tests/crates.py --check      prints nothing; fails if a crate has no line in crates.txt, or no README that begins with a paragraph
"""
import pathlib
import re
import sys
import textwrap

TOP = pathlib.Path(__file__).resolve().parent.parent
WIDTH = 120

def fail(text):
    print(f"tests/crates.py: {text}")
    sys.exit(1)


def read_layers():
    """The layers of crates.txt: the heading of each, and its crates."""
    layers = []
    for line in (TOP / "crates.txt").read_text().partition("\n\n")[2].splitlines():
        if line.startswith("#"):
            layers.append((line[1:].strip(), []))
        elif ":" in line:
            layers[-1][1].append(line.split(":")[0].split()[0])
    return layers


def first_paragraph(crate):
    """The first paragraph of a crate's README, in one line; where a list follows it, without the colon."""
    path = TOP / "crates" / crate / "README.md"
    if not path.exists():
        fail(f"{crate} has no README.md")
    title, _, rest = path.read_text().partition("\n\n")
    if not re.fullmatch(rf"# `?{crate}`?", title.strip()):
        fail(f"the README of {crate} doesn't begin with the crate's name: {title}")
    text = " ".join(rest.partition("\n\n")[0].split())
    if not text or text.startswith(("-", "#", "|")):
        fail(f"the README of {crate} doesn't begin with a paragraph")
    return text[:-1] + "." if text.endswith(":") else text


def item(crate, paragraph):
    text = f"{crate}: {paragraph}"
    return "\n".join(textwrap.wrap(text, WIDTH, initial_indent="  ", subsequent_indent="      ", break_long_words=False, break_on_hyphens=False))


def main():
    words = [word.lower() for word in sys.argv[1:] if word != "--check"]
    layers = read_layers()
    listed = {crate for _, crates in layers for crate in crates}
    found = {path.name for path in (TOP / "crates").iterdir() if (path / "src").is_dir()}
    if listed != found:
        fail(f"crates.txt and the folder crates differ: {' '.join(sorted(listed ^ found))}")
    for title, crates in layers:
        read = [(crate, first_paragraph(crate)) for crate in crates]
        shown = [item(*one) for one in read if all(word in " ".join(one).lower() for word in words)]
        if shown and "--check" not in sys.argv[1:]:
            print("\n".join([title, *shown]))


if __name__ == "__main__":
    main()
