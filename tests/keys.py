#!/usr/bin/env python3
"""Prints the table of a station's keys for docs/configuration.md, from the table in the code.

usage: tests/keys.py
       tests/keys.py --check     fails where the page, the manual or examples/station.toml lacks a key or has another one
"""
import pathlib
import re
import sys

TOP = pathlib.Path(__file__).resolve().parent.parent
CODE = TOP / "crates" / "station_config" / "src" / "keys.rt"
PAGE = TOP / "docs" / "configuration.md"
MANUAL = TOP / "docs" / "man" / "cfdp_server.1"
EXAMPLE = TOP / "examples" / "station.toml"
ROW = re.compile(r'const \w+: KeyRow = \(\s*"(\w+)",\s*"(\w+)",\s*Kind::(\w+)(.*?),\s*&\[(.*?)\],\s*"((?:[^"\\]|\\.)*)",\s*\);', re.DOTALL)


def amount(text):
    return {"MOST_OCTETS_A_SECOND": "1000000000", "RECEIVING_LANES as u64": "8"}.get(text, text.replace("_", ""))


def numbers(details):
    """The numbers of a key's kind, by their names."""
    return {name: amount(value.strip()) for name, value in re.findall(r"(\w+): ([^,}]+)", details)}


def allowed(kind, details, words):
    """What the value of a key may be, in words."""
    named = numbers(details)
    return {
        "Address": "`\"A.B.C.D:PORT\"`",
        "Path": "a path",
        "Perhaps": "a path",
        "Beside": "a path, or `false`",
        "Number": f"{named.get('least')} to {named.get('most')}",
        "Truth": "`true` or `false`",
        "Word": ", ".join(f'`"{word}"`' for word in words),
        "Layout": '`"flat"`, `"tree"`, `"by-source"`, or a list of the last two',
        "Lanes": f"1 to {named.get('most')}, or `\"none\"`",
    }[kind]


def default_of(kind, details, words):
    """What stands for an absent key; nothing if it has to be there."""
    return {
        "Address": "", "Path": "", "Perhaps": "none", "Beside": f"FOLDER{''.join(words)}", "Word": "".join(words[:1]),
        "Layout": "flat", "Lanes": "recv_lanes",
    }.get(kind, numbers(details).get("otherwise"))


def rows():
    """The keys of the code: table, name, what is allowed, default, and what the key is for."""
    found = []
    for table, name, kind, details, listed, about in ROW.findall(CODE.read_text()):
        words = re.findall(r'"([^"]+)"', listed)
        found.append((table, name, allowed(kind, details, words), default_of(kind, details, words), about.replace('\\"', '"')))
    if len(found) != CODE.read_text().count(": KeyRow ="):
        sys.exit("tests/keys.py: a key of keys.rt isn't read")
    return found


def line(row):
    table, name, values, default, about = row
    head = "[[remote]]" if table == "remote" else f"[{table}]"
    return f"| `{head}` | `{name}` | {values} | {f'`{default}`' if default else 'required'} | {about} |"


def check():
    page, manual, example = PAGE.read_text(), MANUAL.read_text(), EXAMPLE.read_text()
    lacking = [f"docs/configuration.md lacks: {line(row)}" for row in rows() if line(row) not in page]
    for table, name, _, _, _ in rows():
        if f".B {name}\n" not in manual and f".BR {name} " not in manual:
            lacking.append(f"docs/man/cfdp_server.1 lacks {name} of {table}")
        if not re.search(rf"^#?{name} = ", example, re.MULTILINE):
            lacking.append(f"examples/station.toml lacks {name} of {table}")
    count = len(re.findall(r"^\| `\[+\w+\]+` \| `\w+` \|", page, re.MULTILINE))
    if count != len(rows()):
        lacking.append(f"docs/configuration.md has {count} keys, the code {len(rows())}")
    if lacking:
        sys.exit("\n".join(lacking))


if sys.argv[1:] == ["--check"]:
    check()
else:
    print("| Table | Key | Value | Default | What it is for |\n|---|---|---|---|---|")
    for each in rows():
        print(line(each))
