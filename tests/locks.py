#!/usr/bin/env python3
"""Locks and waits of the programs, as their source shows them: no function takes a second lock while it holds one, and
docs/architecture.md has a row for each lock and for each wait without a limit of time.

usage: tests/locks.py

It goes by names: a function that keeps what `.lock(` returns may, until that is dropped, call nothing that takes a lock itself.
"""
import pathlib
import re
import sys

ROOT = pathlib.Path(__file__).resolve().parent.parent
TESTS = ("_tests", "test_", "benches", "hostile_runs")
# Values by whose calls a lock may be taken: the names under which functions have them, and the crates of their types.
OWNERS = {"desk": "program_desk", "lot": "program_lot", "seats": "program_seats", "depot": "program_storing", "book": "server_recording",
          "ledger": "program_tallies", "entity": "shared_entity", "watch": "web_console", "log": "event_log", "queue": "event_log",
          "turns": "program_arrivals"}
WAITS = re.compile(r"\.(wait|wait_while|join|accept|recv|recv_from)\(")
# Calls that look like waits and are none: texts are joined, an indication is accepted, a desk's wait has a limit, a socket that
# has no visitor says so at once.
NO_WAITS = {("ctl_words", "text.rt"), ("ind_words", "reader.rt"), ("cfdp_send", "threads.rt"), ("server_commands", "turns.rt"),
            ("web_console", "doors.rt")}


def sources():
    for path in sorted(ROOT.glob("crates/*/src/*.rt")):
        crate = path.relative_to(ROOT).parts[1]
        if not crate.startswith(TESTS) and not crate.endswith(TESTS):
            yield crate, path, path.read_text()


def functions(text):
    """The name, the body and the line of each function, by braces."""
    for found in re.finditer(r"^ *(?:pub(?:\([a-z]+\))? )?fn (\w+)", text, re.M):
        opens = text.find("\n{", found.start())
        same = re.compile(r"\) ?(?:-> [^\n{]*)?\{\n|^ *\) ?(?:-> [^\n{]*)?\{\n|^ *\{\n|> \{\n", re.M).search(text, found.end())
        start = same.end() if same else opens + 2
        depth, at = 1, start
        while depth and at < len(text):
            depth += {"{": 1, "}": -1}.get(text[at], 0)
            at += 1
        yield found.group(1), text[start:at], text.count("\n", 0, found.start()) + 1


def lockers():
    """The functions that take a lock, themselves or by one of those: by crate, and by name alone."""
    bodies = [(crate, name, body) for crate, _, text in sources() for name, body, _ in functions(text)]
    known = {(crate, name) for crate, name, body in bodies if ".lock(" in body}
    while True:
        more = known | {(crate, name) for crate, name, body in bodies if taking(known, crate).search(body)}
        if more == known:
            return known
        known = more


def taking(known, crate):
    """What a call looks like, in a crate, of a function that takes a lock."""
    own = sorted({name for where, name in known if where == crate}) or ["-"]
    others = [rf"\b{owner}\.{name}\(" for owner, of in OWNERS.items() for where, name in sorted(known) if where == of]
    return re.compile(r"\.lock\(|\bself\.(?:" + "|".join(own) + r")\(" + "".join(f"|{call}" for call in others))


def held_parts(body):
    """What follows each lock that a name keeps, up to its drop or to the end of its block."""
    for found in re.finditer(r"let (?:mut )?(\w+) = [^;]*?\.lock\([^;]*?\);", body):
        name, depth, at = found.group(1), 0, found.end()
        while at < len(body) and depth >= 0:
            if body.startswith(f"drop({name})", at):
                break
            depth += {"{": 1, "}": -1}.get(body[at], 0)
            at += 1
        yield body[found.end():at]


def main():
    page = (ROOT / "docs/architecture.md").read_text()
    part = page[page.index("### Locks and waits"):]
    part = part[:part.index("\nEach walk below")]
    locks, waits = part.split("| Wait without")
    wrong, seen_locks, seen_waits = [], set(), set()
    known = lockers()
    checked = 0
    for crate, path, text in sources():
        place = f"{crate}/src/{path.name}"
        if re.search(r": (?:Vec<)?Mutex<", text):
            seen_locks.add(place)
        if WAITS.search(text) and (crate, path.name) not in NO_WAITS:
            seen_waits.add(place)
        takes = taking(known, crate)
        for name, body, line in functions(text):
            for held in held_parts(body):
                checked += 1
                if takes.search(held):
                    wrong.append(f"{place}:{line}: {name} may take a lock while it holds one: {takes.search(held).group(0)}")
    rows = {what: set(re.findall(r"`(\w+/src/\w+\.rt)`", text)) for what, text in (("lock", locks), ("wait", waits))}
    for what, seen in (("lock", seen_locks), ("wait", seen_waits)):
        wrong += [f"docs/architecture.md has no row for the {what} in {place}" for place in sorted(seen - rows[what])]
        wrong += [f"docs/architecture.md has a row for a {what} in {place}, which has none" for place in sorted(rows[what] - seen)]
    if checked < 20:
        wrong.append(f"only {checked} held locks were found: this test no longer reads the source")
    for line in wrong:
        print(line, file=sys.stderr)
    if wrong:
        sys.exit(1)
    print(f"{checked} held locks; no second one is taken, and each lock and wait has its row")


main()
