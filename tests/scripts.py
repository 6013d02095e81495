#!/usr/bin/env python3
"""Plays scripts with the built program, and compares the output and the exit status.

usage: tests/scripts.py PROGRAM

The scripts of `tests/scripts/*.rows` are written out: `== TITLE`, and below it, in each row, a line of the script, a
colon, and the lines that it prints, separated by semicolons. The output was worked out by hand from the tables. Scripts
that are too long to be written out are made here: full journals, many gaps, long lines and names; and those that end in
a bad line.
"""
import pathlib
import subprocess
import sys

ROWS = pathlib.Path(__file__).resolve().parent / "scripts"
SECONDS = 600


def play(program, title, script, printed, status=0):
    """Plays a script, and fails if it prints something else, ends with another status, or writes to the standard error."""
    run = subprocess.run([program], input=script.encode(), capture_output=True, timeout=SECONDS, check=False)
    given, wanted = run.stdout.decode("ascii").splitlines(), printed.splitlines()
    for place, line in enumerate(wanted + ["nothing more"]):
        answer = given[place] if place < len(given) else "nothing more"
        if answer != line:
            sys.exit(f"{title}: line {place + 1} of the output is {answer[:300]!r}, not {line[:300]!r}")
    if run.returncode != status or run.stderr:
        sys.exit(f"{title}: status {run.returncode}, {run.stderr.decode()!r}")


def rows_of(path):
    """The scripts of a file: the title of each, its lines, and their output."""
    title, script, printed = None, [], []
    for row in path.read_text(encoding="ascii").splitlines() + ["== "]:
        if row.startswith("== "):
            if title:
                yield f"{path.name}, {title}", "\n".join(script) + "\n", "\n".join(printed)
            title, script, printed = row[3:], [], []
        elif row and not row.startswith("# "):
            line, _, answer = row.partition(": ")
            script.append(line)
            printed += answer.split("; ") if answer else []


def full_journals():
    yield (
        "a sender whose journal is full",
        "put alice 0 1 1 a b 616263\ntake alice\n" + "report alice 2 4\ntake alice\n" * 262_141
        + "pump 2 4\nreport alice 2 4\nabandon alice 2 4\ntake alice\ntake alice\n",
        "ok\ntxn 2 4\nalice 2 4 Transaction\n" + "ok\nalice 2 4 Report active 0\n" * 262_141
        + "refused 11 JournalFull\nrefused 11 JournalFull\nok\nalice 2 4 Abandoned 15 0\nnone\n",
    )
    yield (
        "a receiver whose journal is full",
        "pdu 20000a0001050207000000000301610162\npdu 3000070001050200000000616263\npdu 20000a0001050204006162630000000003\n"
        + "take alice\n" * 3 + "report alice 1 5\ntake alice\n" * 262_139
        + "report alice 1 5\nstored 1 5 2 yes\ntimer 1 5 ack 262142\nabandon alice 1 5\ntake alice\ntake alice\n",
        "ok\nok\nok\npdu 28000300010502064001\ndeposit 2\nalice 1 5 Metadata-Recv 1 3 61 62\nalice 1 5 File-Segment-Recv 0 3\n"
        + "alice 1 5 EOF-Recv\n" + "ok\nalice 1 5 Report storing 3\n" * 262_139
        + "refused 11 JournalFull\nok\npdu 280002000105020502\nrefused 11 JournalFull\nok\nalice 1 5 Abandoned 15 3\nnone\n",
    )


def many_gaps():
    """Every second octet of a file has arrived: of the 65 missing ones, 64 are requested at once."""
    offsets = [2 * i + 1 for i in range(65)]
    script = ["pdu 20000a0001050207000000000301610162", "take alice"]
    printed = ["ok", "alice 1 5 Metadata-Recv 1 3 61 62"]
    for offset in offsets:
        script += [f"pdu 30000500010502{offset:08x}7a", "take alice"]
        printed += ["ok", f"alice 1 5 File-Segment-Recv {offset} 1"]
    script += ["pdu 20000a0001050204000000000000000082", "take alice"]
    asked = "".join(f"{offset - 1:08x}{offset:08x}" for offset in offsets[:64])
    printed += ["ok", "pdu 28000300010502064001", "pdu 2802090001050208000000000000007f" + asked, "alice 1 5 EOF-Recv"]
    yield "more gaps than are asked for at once", "\n".join(script) + "\n", "\n".join(printed)


def long_words():
    name, in_hex = "x" * 255, "78" * 255
    yield (
        "the longest names of a put",
        f"put alice 0 1 1 {name} {name} -\npump 2 4\n",
        f"ok\ntxn 2 4\nok\npdu 24020600020401070000000000ff{in_hex}ff{in_hex}",
    )
    yield (
        "two parts of a file",
        "put alice 0 1 1 a b " + "01" * 257 + "\n" + "pump 2 4\n" * 4,
        "ok\ntxn 2 4\nok\npdu 24000a0002040107000000010101610162\nok\npdu 3401040002040100000000" + "01" * 256
        + "\nok\npdu 340005000204010000010001\nok\npdu 24000a0002040104004140404000000101",
    )
    yield "a part of many octets", "pdu 34057c0001050200000000" + "61" * 1_400 + "\ntake alice\n", "ok\nalice 1 5 File-Segment-Recv 0 1400"
    first, second, message = "61" * 255, "62" * 255, "63" * 255
    yield (
        "the longest names and messages that come",
        f"pdu 24060a00010502070000000003ff{first}ff{second}" + f"02ff{message}" * 4 + "\ntake alice\n",
        f"ok\nalice 1 5 Metadata-Recv 1 3 {first} {second}" + f" {message}" * 4,
    )
    yield "the longest line", "#" + "x" * 131_199 + "\ntake alice", "none"


# Lines that are bad as a script's first line.
BAD_LINES = [
    "set capacity 0", "set capacity 1025", "set checksum crc", "set checksum 15", "set first 9223372036854775808",
    "set ack_limit 0", "set ack_limit 256", "set nak_limit 0", "set nak_limit 256", "set check_limit 0", "set check_limit 256",
    "set check_limit -1", "set segment 512", "set capacity", "set capacity 2 3",
    "set recv1 8 suspend", "set recv1 4 ignore", "set recv2 5 suspend", "set send 11 ignore", "set send 0 cancel",
    "set send 2 cancel", "set recv2 15 abandon", "set recv2 16 cancel", "set recv2 263 cancel", "set recv3 8 cancel",
    "set recv2 8 stop", "set recv2 8",
    "pdu", "pdu ", "pdu 2", "pdu 2g", "pdu 24 00", " pdu 24", "pdu  24", "PDU 24", "pdu 24 ", "take", "take carol", "take Alice",
    "take alice bob", "take alice\r", "take 0", " ", " # remark",
    "cancel carol 1 5", "cancel alice 1", "cancel alice 1 5 6", "cancel alice +1 5", "suspend alice 1 -5", "resume alice 1 0x5",
    "report alice 1 18446744073709551616", "abandon alice 18446744073709551616 1", "abort alice 1 5", "pump 2", "pump alice 2 4",
    "timer 1 5 nak", "timer 1 5 never 1", "timer 1 5 nak 4294967296", "stored 1 5 2", "stored 1 5 2 maybe",
    "stored 1 5 4294967296 yes",
    "put alice 0 1 1 a ", "put alice 0 1 1 a b - -", "put alice 0 1 1 a b - ", "put alice 0 1 1 a b ", "put alice 0 1 1 a b 616",
    "put alice 0 1 1 a b --", "put alice 0 1 1  b -", "put alice 0 1 1 a ä -", "put alice 2 1 1 a b -", "put alice 0 0 1 a b -",
    "put alice 0 3 1 a b -", "put alice 0 1 18446744073709551616 a b -", "put carol 0 1 1 a b -",
]


def ends():
    """Only comments, and a last line without a line feed."""
    yield "nothing", "", ""
    yield "remarks", "\n\n# take alice\n#", ""
    yield "no line feed at the end", "\ntake alice\n\n#\ntake bob", "none\nnone"


def bad_lines():
    """Bad lines, each with exit status 1."""
    for line in BAD_LINES:
        yield repr(line), line, "line 1: bad line"
    yield "a word that is not known", "take alice\npud 24\ntake alice\n", "none\nline 2: bad line"
    yield (
        "a setting too late",
        "# settings come first\n\nset capacity 2\n#\nset first 2\n\ntake alice\nset first 2\n",
        "none\nline 8: bad line",
    )
    yield "a setting behind a refusal", "pdu 24\nset capacity 2\n", "refused 20 DecodeFault 1\nline 2: bad line"
    yield "too long a name", "take alice\nput alice 0 1 1 a " + "x" * 256 + " -\n", "none\nline 2: bad line"
    yield "too long a source", "put alice 0 1 1 " + "x" * 256 + " b -\n", "line 1: bad line"
    yield "too long a line", "take alice\n#" + "x" * 131_200 + "\ntake alice", "none\nline 2: bad line"
    yield "too many lines", "\n" * 999_999 + "take alice\n#", "none\nline 1000001: bad line"


def main():
    program = str(pathlib.Path(sys.argv[1]).resolve())
    count = 0
    written = [one for path in sorted(ROWS.glob("*.rows")) for one in rows_of(path)]
    if not written:
        sys.exit("tests/scripts has no scripts")
    good = (written, full_journals(), many_gaps(), long_words(), ends())
    for scripts, status in [*((scripts, 0) for scripts in good), (bad_lines(), 1)]:
        for title, script, printed in scripts:
            play(program, title, script, printed, status)
            count += 1
    print(f"{count} scripts print what they should")


main()
