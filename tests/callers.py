#!/usr/bin/env python3
"""The callers that the READMEs of crates show are those of crates/caller_tests, which the gate proves and runs.

usage: tests/callers.py [--write]

With --write it puts them into the READMEs, each as the section "A caller".
"""
import pathlib
import re
import sys

CRATES = pathlib.Path(__file__).resolve().parent.parent / "crates"
SHOWN = {"codec": "pdu_codec", "config": "entity_config", "disks": "disk", "entity": "shared_entity", "lanes": "txn_lane",
         "queues": "user_queues", "scripts": "script_replay", "timers": "timer_list", "world": "world_core"}
SECTION = re.compile(r"\n## A caller\n\n```rust\n(.*?)```\n", re.DOTALL)


def caller_of(name):
    text = (CRATES / "caller_tests" / "src" / f"{name}.rt").read_text()
    return text.split("// ---- the test")[0].strip() + "\n"


def main():
    stale = []
    for name, crate in SHOWN.items():
        readme = CRATES / crate / "README.md"
        text = readme.read_text()
        found = SECTION.search(text)
        if found and found[1] == caller_of(name):
            continue
        if sys.argv[1:] != ["--write"]:
            stale.append(f"crates/{crate}/README.md doesn't show the caller in crates/caller_tests/src/{name}.rt")
            continue
        section = f"\n## A caller\n\n```rust\n{caller_of(name)}```\n"
        readme.write_text(text.replace(found[0], section) if found else text + section)
    if stale:
        sys.exit("\n".join([*stale, "tests/callers.py --write puts them there"]))
    print(f"{len(SHOWN)} crates show a caller that is proved and run")


main()
