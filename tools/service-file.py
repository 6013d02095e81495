#!/usr/bin/env python3
"""Prints the station's file of a service: examples/station.toml with the paths that the head of the unit names.

usage: tools/service-file.py
"""
import pathlib
import re
import sys

EXAMPLES = pathlib.Path(__file__).resolve().parent.parent / "examples"
ROW = re.compile(r"#\s+\[(\w+)\]\s+(\w+) = (.*)")


def rows():
    """The tables, keys and values in the unit's head."""
    head = (EXAMPLES / "cfdp_server.service").read_text().partition("\n\n")[0]
    return {(found[1], found[2]): found[3] for found in map(ROW.match, head.splitlines()) if found}


def text():
    """The station's file with these values, each in place of the example's line, which may be a remark."""
    wanted, table, lines = rows(), "", []
    for line in (EXAMPLES / "station.toml").read_text().splitlines():
        if found := re.fullmatch(r"\[+(\w+)\]+", line):
            table = found[1]
        key = re.match(r"#?(\w+) = ", line)
        if key and (table, key[1]) in wanted:
            line = f"{key[1]} = {wanted.pop((table, key[1]))}"
        lines.append(line)
    if wanted:
        sys.exit(f"examples/station.toml has no {' '.join(f'[{table}] {key}' for table, key in wanted)}")
    return "\n".join(lines) + "\n"


if __name__ == "__main__":
    print(text(), end="")
