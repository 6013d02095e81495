#!/usr/bin/env python3
"""Prints docs/trusted.md: the definitions that have to be believed, in reading order, and where each notion is defined.

usage: tests/trusted.py > docs/trusted.md
       tests/trusted.py --check     fails where the page is stale, or a file of specs/ doesn't say what it is
"""
import collections
import pathlib
import re
import sys
import textwrap

from crates import read_layers

TOP = pathlib.Path(__file__).resolve().parent.parent
PAGE = TOP / "docs" / "trusted.md"
README = TOP / "README.md"
WIDTH = 120
MEANING, CODE, ROWS = "Meaning", "Of the code", "Rows"

# The crates whose public calls carry the promises of the README, and those that programs go by.
PROMISING = """entity_routing user_queues world_table world_core world_laws shared_lanes shared_entity entity_workers
ends_schedules pdu_codec entity_config disk number_file station_store script_replay journal_recording server_lines program_numbers
ctl_views web_lines web_pages web_console cfdp_session cfdp_c""".split()

INTRO = """# What has to be believed

`tests/trusted.py` prints this page, and the gate fails if it is stale.

A proof says that a call keeps its contract. A contract is written in definitions, which are in the folders `specs/` of the crates. If a
definition says something else than it should, the proofs are about something else; so somebody has to read the definitions. They are
below in reading order: layer by layer (`crates.txt`), and in a crate each after those that it cites. The first line of each
file says what it is:

- **Meaning**: the contracts of public calls and the laws speak in these. All of them are listed.
- **Of the code**: how the code keeps what is meant, such as what a value of the code stands for, or what holds between two steps.
  {cited} The others occur in proofs and in contracts of calls that only the repository's own code makes. No promise of the README
  speaks in their terms, so a wrong one could only make a proof fail, and nobody has to believe them.
- **Rows**: worked examples, and the values that they use. They show that a definition says what it should. No promise rests on them,
  unless one is listed.

Three things beside these files have to be believed: the types, their fields and constants, which are those of the code
(`specs/declared/` is made from it; each `Lib.antt` only names the other files); the model and the invariant of a type with private
fields, which are written at the type; and what a trait asks of its implementations, which is written at the trait. Models and traits are listed
after the files.

These are trusted as well, and the README lists them: the toolchain, with its checker, its compiler and its library; the contracts of
the kit's ported crates; the C library and the operating system; and that a program which calls the library for C keeps what
`docs/embedding.md` asks of it, where no proof reaches. The programs' `main`, what sockets, files and terminals do, and all
that no contract says are only tested or not claimed (`docs/proved.md`).

Of the system's disk the crates `disk` and `whole_files` trust this (`crates/disk/README.md`): that each method of `SystemDisk` asks the
system for what it notes, that a call which found its path taken did nothing, that a read returns what is there, and that a power cut
leaves no more than `crates/disk/specs/Crash.antt` says. `docs/operating.md` says which file systems do that."""

RESTS = """## What the promises of the README rest on

Whoever wants to believe one promise of the README reads its list: the definitions that the contracts of its crates' public calls cite,
directly or through others. The first promise, that every function is safe, needs none. The others rest on {all} of the {listed} that
are listed below."""

READING = """## How to read a definition

A definition is a function that computes, or a statement. Each whose name doesn't say it all has a line of comment above it.
`docs/glossary.md` has the words.

**The table of an end** is a function of a state. `State` is a record of everything that the table asks, and `step` says how one log entry
changes each part. `Refusals.antt` has one definition for each reason, in the order of their numbers; `refusal_at` takes the first that
applies. `Answers.antt` has one definition for each row of the table: a `Response` says which indications the user receives, what is sent,
whether the file is handed out and which timers it arms; `and_then` joins two. `accepted_at` makes the answer of a response: the PDUs in
their order come from the response, the timer operations (`effect_of`) from the state after the step. `answer_at` is refusal and answer
together.

**The queue of a user, among threads**, is three things at each moment: the bundles that the user's port has taken, those that the queue
holds, and for each lane what it has put in. The rule (`queue_rule`, `Rule.antt`) says: each bundle that was taken or is held is of one of
the user's lanes; and if of those taken, and then those held, only the bundles of one lane are kept, they are just what that lane put in, in
its order. What a lane puts in is a lane list: the words of its transactions, one after the other. Each step of each thread keeps this rule;
the promises on what a user takes among threads follow from it alone, so the rule and what each participant knows (`Views.antt`) have to be
believed, and not the queue's slots and counters.

**Worked transactions** are lemmas that the checker computes on both sides. PDUs are in them as hex numbers, by `digits`, as they travel.
There a refusal isn't an answer: indications, PDUs and the deposit are an option. Each whole transaction comes with the lemma that its log
is legal. Rows are in `specs/` or `proofs/` of a crate (`*Rows.antt`), or in a crate of rows."""

# Which notion is defined where. A line is a notion, and after the colon the files of crates; a crate alone means all
# of its files.
MAP = """
condition codes, checksum types: cfdp_types/Condition ChecksumType
handlers that a role allows, fault tables: cfdp_types/Handlers
parameters of a remote entity and their ranges; Put requests: cfdp_types/Params Put
what a step does with timers; whether what came first or last counts: cfdp_types/Steps
parameters of worked transactions; their PDUs and their Put: cfdp_types/Reference txn_events/Examples
the modular checksum, of octets at an offset and of a file in pieces: modular_sum
sets of offsets, maximal runs, what is missing; what a gap list covers: gap_list/Runs Covered
PDUs as values, codes of directives, numbers as octets: pdu_values/Pdu Directive Numbers
spelling: what is written, what fits: pdu_values/Spelling Requests Tlvs
reading, the fixed header, the first fault: pdu_reading/Reading FixedHeader FirstFault
laws of octets and PDUs: pdu_codec/Laws
configurations and their limits; what a text means; faults by number: config_reading/Values Texts Walk Reads Faults
the reference configuration, and settings: entity_config/Reference Settings
the table at which reading a configuration stops, the line of a key; what makes little sense: fault_texts/Spots Scans server_answers/Notes
indications by kind; words of both sides; the last indication: indications/Kinds Words
lane lists, and the side that a transaction shows: indications/LaneLists
what a `WordReader` keeps: marks, offsets, the words after which it stands: ind_words/Marks Offsets Reading
a queue that threads share: what each participant knows, and the rule of all: queue_rule/Views Rule Passes
a queue of one thread: what goes in, what is taken: user_queues/Queue
the ends of a shared queue, a queue that was just opened, the queues of a run: user_queues/Shared Opened Names
refusals by number and name: of a lane, of a route, of an entity: txn_events/Refusal entity_routing/Refusal entity_parts/Refusals
what both ends ask of an event; what opens, what is too large, the echo of a PDU: txn_events/Events
answers, logs, and after which log a core stands: txn_events/Logs
stamps and counts of timers, as the code keeps them: txn_events/Timers
the receiver: state, received octets, phases, counts: receiver_table/Reception
the receiver: refusals; the look at the file, NAKs, faults, all responses: receiver_table/Refusals Answers
the receiver: what the file store gets: receiver_table/Images
the receiver: legal logs, good files; the laws: receiver_laws/LegalReceptions ReceptionLaws
the sender, likewise: sender_table/Sending Refusals Answers sender_laws/LegalSendings SendingLaws
how the code of an end keeps its state, and what a plan is: receiver_parts receiver_core sender_core
when a PDU agrees with a Put; the laws of each end by itself: ends_laws/Agreement SenderLaws ReceiverLaws
two ends: moves, what was sent, schedules; the laws: ends_schedules/Schedules ScheduleLaws
lanes and entities as the ends of a schedule: ends_lanes/LaneMoves EntityMoves
two ends beside the disk of the receiver's file store, and the law of the file that was put: ends_disk/Histories
lanes: state, numbers; a transaction at either end with its log: lane_table/Lane Logs
lanes: refusals and what follows; which bundles fit; the laws: lane_table/Steps Keeping LaneLaws
the file that a lane hands out; a look at a lane's transaction: lane_table/Images Glances
a step of a lane's code; a transaction's code, over the logs of both ends: txn_lane/Stepping Transactions
how a lane's code keeps its transaction and hands its bundle over: txn_lane/LaneCode RunningCode Handing
how far a transaction is: lane_traces/Traces
to which lane an event goes, or why to none: entity_routing/Places Routes RouteLaws
the lanes of a configuration in their first state; what a user may ask: entity_parts/FirstLanes Asking
histories of the entity of one thread, and the laws: world_table/Histories HistoryLaws
users after a history; what `World` answers; events where the configuration says: world_core/Standing Opening Worlds Answering Routed
laws of every run, by keys; of every script: world_laws/EntityLaws script_laws/ScriptLaws
a session round an entity: what calls do, what is kept, answers as numbers, the Put of an order, who may send: cfdp_session/Steps Kept Flat Orders Turning
of what an entity is made before its first event: text and settings: cfdp_session/Plans
lanes in turn; timers of which some operations are still to be done: cfdp_session/Turns Running
when a configuration's fault is explained: fault_texts/Explained
the entity for C: what a handle owns, what calls do to it, codes and names, faults in words, settings: cfdp_c/Owned Calls Codes Names Explaining Setting
the list of timers that run: timer_list/Timers
what a disk was asked; what a power cut may leave of it; which faults may pass: disk/Steps Crash Faults
what is promised of a file on a disk; how long it stays; why each flush is needed: disk/Promise Staying Needed
what is known of a disk while a file is stored and written on: disk/Parts
files that are stored over a part: whole_files/Wholes PartSteps
what the file of numbers covers; its text; what it has after a power cut; its laws: number_file/Rounds Texts Files RoundLaws LanePlaces program_numbers/Held
what an outbox's file says; its text; what it has after a power cut: outbox_file/Books Texts Files
what an outbox and its file say together: held_outbox/Held
how a word is written in a command; the words of commands that change something: server_lines/Words CommandWords
file names that a folder store takes; stores in memory and in a folder; faults: file_stores/Names MemoryStore FolderStore Faults
where a store with folders puts a file, what it has ready, and the effect of a deposit: station_store/Paths Stations Sources
what a lane's lock guards, and a step of it: shared_lanes/Held
what `Entity` may answer; what it is opened with: shared_entity/Answering Opening
workers: faults, which answers a carrier accepts; deposits: entity_workers/Faults Carrying Depositing
words of a line, and operands that scripts and commands share: line_words/Words Operands Places
words of a line with quotes: line_words/Quoted
printed lines: indications; answers and refusals: answer_texts/ToldTexts AnswerTexts
what a line of a script says: script_lines/Commands
the lines of a journal's events, how they are read back, and the script of a whole journal: journal_scripts/Rows Laws journal_recording/Recording
the first lines of a recording, its text, its pieces and the names of files; when a transaction began: program_recorder/Headings Recordings Pieces Names Sights
what a PDU says in words: script_explained/Words
a reader's lines, what a writer gains, how the end of a run is reported: script_io/Lines Output Ending
what a line does to a script's session, what it prints, and a whole script: script_replay/Sessions Texts Run
how many transactions ended and how, and which files came whole: program_tallies/Counts Files Whole
how much each event matters, and which of the last ones are kept and shown: event_levels/Levels Events kept_events/Rings
what a line of a server's commands asks for, and what of it is left at the desk: server_lines/Commands program_desk/Says
options and words of the programs; numbers on a command line: program_words/Lines Numbers
turns of files and timers, files to be stored; what becomes of a refusal: program_agenda/Turns Stores Fates program_station/Obstacles
whose datagrams are taken: program_arrivals/Hearing
the pace of what leaves, and its law: program_agenda/Paces PaceLaws
datagrams that wait for their lane, their room, and the laws of both: program_parking/Lanes Parkings ParkingLaws program_lot/Waits
which number begins next toward an entity, and its law; with how many lanes files don't wait: program_lineup/Lineups Counts LineupLaws
where a PDU goes, how far its data reaches; when a step's timers expire: program_udp/Peers Reaches program_desk/Steps
what a program prints for a fault: program_start/Faults
what a program replies to a command line by which nothing starts: program_words/Replies
what the server prints of an answer, of what became of a request, and of a configuration that makes little sense; exit status and progress of a put: server_answers/Answers Outcomes Remarks cfdp_send/Ended Progress
which paths a Unix socket can have: unix_sockets/Addresses
the texts of configurations that tests read: test_configs/Texts
"""


def fail(text):
    print(f"tests/trusted.py: {text}")
    sys.exit(1)


class Definitions:
    """A file of specs/: what it is, how long, and which others it cites."""

    def __init__(self, path):
        text = path.read_text()
        first = text.split("\n", 1)[0]
        found = re.fullmatch(rf"-- ({MEANING}|{CODE}|{ROWS})\. (.+)", first)
        if not found:
            fail(f"{path.relative_to(TOP)}: its first line doesn't say what it is: {first}")
        self.kind = found[1]
        self.says = found[2] if found[2].endswith(".") else first_sentence(text[len(self.kind) + 5:])
        self.path = path
        self.crate = path.parent.parent.name
        self.lines = text.count("\n")
        self.cites = [file_of(*one) for one in re.findall(r"^(?:pub )?use Rattle\.(\w+)\.specs\.([A-Z]\w*)", text, re.M)]


def first_sentence(text):
    """The first sentence of the comment that a text begins with."""
    lines = re.match(r"(?:[^\n]*\n)(?:-- [^\n]*\n)*", text)[0].splitlines()
    return re.match(r".*?\.(?= |$)", " ".join(line.removeprefix("-- ") for line in lines))[0]


def file_of(crate, module):
    return TOP / "crates" / crate / "specs" / f"{module}.antt"


def heading(title):
    """The heading of a layer."""
    return title[0].upper() + title[1:]


def read_definitions(crates):
    found = {}
    for crate in crates:
        for path in sorted((TOP / "crates" / crate / "specs").glob("*.antt")):
            if path.name != "Lib.antt":
                found[path] = Definitions(path)
    return found


def in_order(files, found):
    """Each file after those of the same crate that it cites, else by name."""
    order = []

    def visit(path):
        if path in order:
            return
        for cited in sorted(found[path].cites):
            if cited in files and cited != path:
                visit(cited)
        order.append(path)

    for path in sorted(files):
        visit(path)
    return order


# ---- what public calls cite

def exported(crate):
    """The names and modules that a crate exports; a program exports none."""
    if not (TOP / "crates" / crate / "src" / "lib.rt").exists():
        return set()
    text = (TOP / "crates" / crate / "src" / "lib.rt").read_text()
    names = set(re.findall(r"\w+", " ".join(re.findall(r"^pub use ([^;]*);", text, re.M))))
    return names | set(re.findall(r"^pub mod (\w+);", text, re.M))


def public_clauses(path, names):
    """The clauses of the public calls of a file, and the models of its public types."""
    text = path.read_text()
    owner = None
    inside = path.stem in names or path.name == "lib.rt"
    for found in re.finditer(
        r"^impl(?:<[^\n]*?>)? (?P<of>[^\n{]*)|^(?P<tab> *)pub fn (?P<name>\w+)(?P<rest>.*?)^(?P=tab)\{", text, re.M | re.S
    ):
        if found["of"] is not None:
            owner = re.findall(r"\w+", found["of"].split(" for ")[-1])[0]
            if found["of"].startswith("Model for") and owner in names:
                yield text[found.start():text.index("\n}", found.start())]
        elif (owner in names if found["tab"] else inside or found["name"] in names):
            yield found["rest"]


def cited_by_calls(crate):
    """The files of specs/ that the public calls of a crate cite."""
    names = exported(crate)
    cited = set()
    for path in (TOP / "crates" / crate / "src").rglob("*.rt"):
        words = {}
        for of, module, some in re.findall(r"^ghost use Rattle\.(\w+)\.specs\.([A-Z]\w*)\.\{([^}]*)\};", path.read_text(), re.M):
            for word in filter(None, (one.split(" as ")[-1].strip() for one in some.split(","))):
                words[word] = file_of(of, module)
        for clauses in public_clauses(path, names):
            cited |= {at for word, at in words.items() if re.search(rf"(?<!\w){re.escape(word)}(?!\w)", clauses)}
    return cited


def believed(found):
    """All files of meaning, and those of another kind that they or the promises cite, directly or through others."""
    left = [path for path, one in found.items() if one.kind == MEANING]
    for crate in PROMISING:
        left += cited_by_calls(crate)
    return with_cited(left, found)


def with_cited(left, found):
    """These files, and those that they cite, directly or through others."""
    left, seen = list(left), set()
    while left:
        path = left.pop()
        if path in found and path not in seen:
            seen.add(path)
            left += found[path].cites
    return seen


# ---- the promises of the README

def promises():
    """Each promise of the README: its number, its text without links, and the crates that carry it."""
    text = README.read_text().split("## What is promised", 1)[1].split("Each of these is the contract", 1)[0]
    for number, said in re.findall(r"^(\d+)\. (.*?)(?=^\d+\. |\Z)", text, re.M | re.S):
        crates = re.findall(r"\(crates/(\w+)/README\.md\)", said)
        words = re.sub(r"\[([^\]]*)\]\([^)]*\)", r"\1", " ".join(said.split()))
        yield int(number), words, crates


def rests_on(groups, found):
    """What each promise rests on, and all of them together."""
    order = [crate for _, crates in groups for crate in crates]
    every, parts = set(), []
    for number, words, crates in promises():
        files = with_cited([path for crate in crates for path in cited_by_calls(crate)], found)
        every |= files
        if not files:
            continue
        names = collections.defaultdict(list)
        for path in sorted(files):
            names[found[path].crate].append(path.stem)
        listed = "; ".join(f"`{crate}` {' '.join(names[crate])}" for crate in order if crate in names)
        parts.append("\n".join(textwrap.wrap(f"**{number}.** {words}", WIDTH, break_long_words=False, break_on_hyphens=False))
                     + "\n\n" + "\n".join(textwrap.wrap(f"{counted(files, found)}: {listed}.", WIDTH, break_long_words=False, break_on_hyphens=False)))
    return every, "\n\n".join(parts)


# ---- definitions in the code itself

def models_and_members(crate):
    """The public types of a crate that contracts see by a model, and the public traits with ghost members; each with its file."""
    names = exported(crate)
    for path in sorted((TOP / "crates" / crate / "src").rglob("*.rt")):
        text = path.read_text()
        at = path.relative_to(TOP / "crates" / crate)
        for found in re.finditer(r"^impl(?:<[^\n]*?>)? Model for (\w+).*?^}", text, re.M | re.S):
            if found[1] in names:
                kept = " and what it keeps" if "ghost invariant" in found[0] else ""
                yield f"- `{found[1]}` (`{at}`): what contracts see of it{kept}."
        for found in re.finditer(r"^pub trait (\w+).*?^}", text, re.M | re.S):
            members = re.findall(r"^    ghost (\w+):", found[0], re.M)
            if found[1] in names and members:
                yield f"- `{found[1]}` (`{at}`), a trait: " + ", ".join(f"`{one}`" for one in members) + "."


# ---- the page

def item(one):
    kind = "" if one.kind == MEANING else f" ({one.kind.lower()})"
    text = f"- `{one.path.name}`, {one.lines} lines{kind}: {one.says[0].lower() + one.says[1:]}"
    return "\n".join(textwrap.wrap(text, WIDTH, subsequent_indent="  ", break_long_words=False, break_on_hyphens=False))


def counted(files, found):
    return f"{len(files)} files, {sum(found[path].lines for path in files):,} lines"


def page():
    groups = read_layers()
    found = read_definitions([crate for _, crates in groups for crate in crates])
    listed = believed(found)
    others = [path for path in listed if found[path].kind != MEANING]
    cited = (f"A definition of meaning, or the contract of a public call of one of the crates that carry the promises of "
             f"the README or that programs go by ({', '.join(f'`{one}`' for one in PROMISING)}), cites {len(others)} files of the code or of rows, directly or through "
             f"others: these are listed, too, marked as what they are.")
    every, rests = rests_on(groups, found)
    head = RESTS.format(all=counted(every, found), listed=counted(listed, found))
    out = ["\n".join(wrap_intro(INTRO.format(cited=cited))), "\n".join(wrap_intro(head)), rests, "\n".join(wrap_intro(READING))]
    out.append("## Where each notion is defined\n\n" + map_table())
    for title, crates in groups:
        files = [path for path in listed if found[path].crate in crates]
        if not files:
            continue
        out.append(f"## {heading(title)}")
        for crate in crates:
            mine = {path for path in files if found[path].crate == crate}
            if mine:
                out.append(f"**`{crate}`**")
                out.append("\n".join(item(found[path]) for path in in_order(mine, found)))
        out.append(f"In this group: {counted(files, found)}.")
    out.append(f"## In all\n\n{counted(listed, found)}.")
    out.append("## Models, and what traits ask\n\n" + at_types(groups))
    out.append("## What need not be believed\n\n" + rest_table(found, listed))
    return "\n\n".join(out) + "\n"


def map_table():
    """The table of the map, whose files must exist."""
    rows = ["| Notion | Files of `specs/` |", "|---|---|"]
    for line in MAP.strip().splitlines():
        notion, _, files = line.rpartition(": ")
        rows.append(f"| {notion} | {', '.join(map_files(files.split()))} |")
    return "\n".join(rows)


def map_files(words):
    """The files of a row: a crate with a file, a further file of the same crate, or a crate alone."""
    crate = None
    for word in words:
        named, _, module = word.rpartition("/")
        if not named and module[0].islower():
            if not (TOP / "crates" / module / "specs").is_dir():
                fail(f"the map names {module}, which has no specs/")
            yield f"all of `{module}`"
            continue
        crate = named or crate
        if not file_of(crate, module).exists():
            fail(f"the map names {crate}/specs/{module}.antt, which is not there")
        yield f"`{crate}/{module}`" if named else f"`{module}`"


def at_types(groups):
    """The list of models and ghost members, crate by crate."""
    parts = []
    for _, crates in groups:
        for crate in crates:
            lines = list(models_and_members(crate))
            if lines:
                parts.append(f"**`{crate}`**\n\n" + "\n".join(lines))
    return "\n\n".join(parts)


def wrap_intro(text):
    """The lines of the intro, none too long."""
    for part in re.split(r"\n(?=\n|- )", text):
        lines = part.strip("\n").split("\n")
        if part.startswith("\n"):
            yield ""
        hang = "  " if lines[0].startswith("- ") else ""
        yield from textwrap.wrap(" ".join(line.strip() for line in lines), WIDTH, subsequent_indent=hang,
                                 break_long_words=False, break_on_hyphens=False) if lines[0] else [""]


def rest_table(found, listed):
    rest = collections.defaultdict(lambda: collections.defaultdict(list))
    for path, one in found.items():
        if path not in listed:
            rest[one.crate][one.kind].append(path)
    rows = ["| Crate | Of the code | Rows |", "|---|---|---|"]
    rows += [f"| `{crate}` | {counted_or_none(kinds[CODE], found)} | {counted_or_none(kinds[ROWS], found)} |"
             for crate, kinds in rest.items()]
    return "\n".join(rows)


def counted_or_none(files, found):
    return counted(files, found).replace("1 files", "1 file") if len(files) == 1 else counted(files, found) if files else ""


def main():
    text = page()
    if "--check" in sys.argv[1:]:
        if not PAGE.exists() or PAGE.read_text() != text:
            fail("docs/trusted.md is stale: tests/trusted.py > docs/trusted.md")
    else:
        print(text, end="")


main()
