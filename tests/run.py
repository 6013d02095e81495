#!/usr/bin/env python3
"""Runs the scripts that try the built programs, side by side: as many as there are processors, each in a folder of its own.

usage: tests/run.py [--programs FOLDER] [--crate CRATE..] [NAME..]

Without names all scripts of SCRIPTS run, with names only these; with --crate those that concern a crate. Those that measure time,
or that need all processors, run alone at the end. A script that fails runs once more, alone. If it passes then, it is unsteady: its
first failure is printed, and more than two unsteady scripts fail the run. Each is a race that somebody has to mend.

The programs are crates/NAME/out/NAME, or FOLDER/NAME. The last line is `N passed, M failed`, and how many were unsteady.
"""
import concurrent.futures
import os
import pathlib
import resource
import signal
import subprocess
import sys
import tempfile
import time
from typing import NamedTuple

TOP = pathlib.Path(__file__).resolve().parent.parent
# How many seconds a script may take; its processes are ended then.
LIMIT = 900
MOST_UNSTEADY = 2
# How many ports a script has for its servers. The first one is above those of well-known services, and all are below those that the
# system gives by itself.
PORTS, FIRST_PORT = 400, 10_000
# The groups of processes of the scripts that run.
RUNNING = set()


class Script(NamedTuple):
    """A script with its arguments; a word in braces is a program, or the folder of an installation."""

    name: str
    words: str
    is_alone: bool = False
    after: str = ""
    # whether it needs a program as it is given out, with the C library's own allocations
    is_bare: bool = False


# In the order in which they begin, so the long ones come first. Each that runs alone says why.
SCRIPTS = [
    Script("archive", "tools/archive.py"),
    Script("ctl", "tests/ctl.py {cfdp_ctl} {cfdp_server}"),
    Script("folders", "tests/ctl.py {cfdp_ctl} {cfdp_server} folders"),
    Script("full", "tests/ctl.py {cfdp_ctl} {cfdp_server} full"),
    Script("soak", "tests/soak.py {cfdp_server} 60"),
    Script("recorder", "tests/recorder.py {cfdp_server} {cfdp_replay} {cfdp_ctl}"),
    Script("tuning", "tests/tuning.py {cfdp_server}"),
    Script("many", "tests/many.py {cfdp_server} {cfdp_ctl}"),
    Script("control", "tests/control.py {cfdp_server}"),
    Script("outbox", "tests/outbox.py {cfdp_server}"),
    Script("numbers", "tests/numbers.py {cfdp_server} {cfdp_put}"),
    Script("scripts", "tests/scripts.py {cfdp_replay}"),
    Script("server", "tests/server.py {cfdp_server} {cfdp_put}"),
    Script("large", "tests/large.py {cfdp_server} {cfdp_ctl} {cfdp_put}"),
    Script("restarts", "tests/restarts.py {cfdp_server}"),
    Script("cuts", "tests/cuts.py {cfdp_server}"),
    Script("counts", "tests/counts.py {cfdp_server} {cfdp_ctl} {cfdp_web}"),
    Script("console", "tests/console.py {cfdp_web} {cfdp_server}"),
    Script("told", "tests/told.py {cfdp_server}"),
    Script("likeness", "tests/likeness.py {cfdp_server}"),
    Script("places", "tests/places.py {cfdp_server}"),
    Script("faults", "tests/faults.py {cfdp_server} {cfdp_put}"),
    Script("starts", "tests/starts.py {cfdp_server} {cfdp_put}"),
    Script("units", "tests/units.py {cfdp_server} {cfdp_ctl}"),
    Script("slow_link", "tests/slow_link.py {cfdp_server}"),
    Script("transfer", "examples/transfer.sh {cfdp_server} {cfdp_put} 2 4194304 7 11"),
    Script("terminal", "tests/terminal.py {cfdp_replay}"),
    Script("explained", "tests/explained.sh {cfdp_replay}"),
    Script("endings", "tests/endings.sh {cfdp_replay}"),
    Script("examples", "tests/examples.sh {cfdp_replay}"),
    Script("manual", "tests/manual.sh {cfdp_server} {cfdp_put} {cfdp_ctl} {cfdp_web} {cfdp_replay}"),
    Script("lib", "tools/lib.sh {archive} {prefix}", after="archive"),
    Script("library", "tests/library.sh {cfdp_server}", after="lib"),
    Script("calls", "tests/library.py {cfdp_replay}", after="lib"),
    Script("module", "tests/module.py", after="lib"),
    # these play scripts on all processors
    Script("memory", "tests/memory.py {hostile_runs} {cfdp_replay}", is_alone=True, is_bare=True),
    # in class 1 nothing asks again for what a full buffer lost
    Script("unacknowledged", "examples/transfer.sh {cfdp_server} {cfdp_put} 1 1048576 0 0", is_alone=True),
    Script("closure", "examples/transfer.sh {cfdp_server} {cfdp_put} 1 4096 0 0 --closure", is_alone=True),
    # replies a second, and how long ends and reads take
    Script("hostile", "tests/hostile.py {cfdp_server} {cfdp_put}", is_alone=True, is_bare=True),
    Script("station", "tests/station.py {cfdp_server} {cfdp_ctl}", is_alone=True),
    # what goes on while the disk takes its time
    Script("stores", "tests/stores.py {cfdp_server}", is_alone=True),
    # milliseconds of a request, and memory
    Script("web", "tests/web.py {cfdp_web}", is_alone=True),
]

# What concerns a crate: the scripts for a beginning of its name, the longest one that fits.
CONCERNS = {
    "": "starts faults server station manual",
    "pdu_": "scripts explained memory",
    "cfdp_": "starts faults server station many",
    "cfdp_c": "archive lib library calls module",
    "cfdp_session": "archive lib library calls module",
    "fault_texts": "archive lib module faults places",
    "cfdp_ctl": "ctl folders full manual",
    "cfdp_web": "web console manual",
    "cfdp_put": "server starts faults numbers transfer unacknowledged closure manual",
    "cfdp_send": "server starts faults numbers transfer unacknowledged closure",
    "cfdp_replay": "scripts explained endings examples terminal manual",
    "config_": "starts faults places large",
    "entity_config": "starts faults places large",
    "ctl_": "ctl folders full manual",
    "station_client": "ctl folders full console",
    "station_lines": "likeness control counts ctl",
    "station_names": "likeness ctl web",
    "web_": "web console",
    "script_": "scripts explained endings examples",
    "line_words": "scripts explained server",
    "journal_": "recorder scripts",
    "disk": "cuts stores numbers outbox",
    "whole_files": "cuts stores numbers outbox",
    "file_stores": "cuts stores",
    "station_store": "cuts stores",
    "number_file": "cuts numbers restarts",
    "outbox_file": "outbox restarts",
    "held_outbox": "outbox restarts",
    "receiver_": "scripts many recorder",
    "sender_": "scripts many recorder",
    "txn_": "scripts many recorder",
    "lane_": "scripts many recorder",
    "world_": "scripts recorder memory",
    "shared_": "many large hostile recorder",
    "entity_workers": "many large hostile stores",
    "user_queues": "scripts many memory",
    "queue_rule": "scripts many memory",
    "gap_list": "scripts hostile memory",
    "modular_sum": "scripts many",
    "timer_list": "server station restarts",
    "event_levels": "tuning told",
    "kept_events": "control tuning",
    "unix_sockets": "control ctl console",
    "program_seats": "control",
    "program_control": "control places",
    "program_desk": "control station",
    "program_lot": "many stores hostile",
    "program_parking": "many stores hostile",
    "program_lineup": "station many",
    "program_numbers": "numbers restarts",
    "program_outbox": "outbox station tuning",
    "program_recorder": "recorder",
    "program_start": "starts faults places",
    "program_status": "control counts likeness",
    "program_storing": "stores cuts",
    "program_tallies": "counts control",
    "program_udp": "server tuning hostile slow_link",
    "program_words": "starts faults manual",
    "server_": "server control station tuning outbox",
    "server_recording": "recorder",
    "server_reports": "control told counts tuning",
    "server_lines": "server control station tuning",
    "hostile_runs": "memory",
}


class Run(NamedTuple):
    """How a run of a script ended: its status, its seconds, and what it printed."""

    status: int
    seconds: float
    text: str

    def last_line(self):
        lines = self.text.strip().splitlines()
        return lines[-1] if lines else ""


def used():
    """How many seconds of processors the processes took that this one has waited for, and those below them."""
    spent = resource.getrusage(resource.RUSAGE_CHILDREN)
    return spent.ru_utime + spent.ru_stime


def processors():
    return len(os.sched_getaffinity(0))


def words_of(script, programs):
    """The words of a script's command line."""
    places = {"archive": TOP / "crates/cfdp_c/out/libcfdp_c.a", "prefix": os.environ.get("PREFIX", "/usr/local")}
    words = []
    for word in script.words.split():
        name = word[1:-1] if word.startswith("{") else ""
        words.append(str(places.get(name) or programs(name)) if name else word)
    return words


def program_of(folder):
    """Where a program is: in a folder with all of them, or where `rt ci` leaves it."""
    return lambda name: pathlib.Path(folder, name).absolute() if folder else TOP / "crates" / name / "out" / name


def play(script, programs, place):
    """Runs a script once, in a folder and with ports of its own. Its place among the scripts decides which ports."""
    begun = time.monotonic()
    first = FIRST_PORT + place % 50 * PORTS
    with tempfile.TemporaryDirectory(prefix=f"{script.name}-", ignore_cleanup_errors=True) as room, tempfile.TemporaryFile() as told:
        around = {**os.environ, "TMPDIR": room, "TEST_PORTS": f"{first}-{first + PORTS}", "PYTHONUNBUFFERED": "1"}
        # what is left behind may hold the file open, and nobody waits for that
        try:
            run = subprocess.Popen(words_of(script, programs), cwd=TOP, env=around, stdin=subprocess.DEVNULL, stdout=told,
                                   stderr=subprocess.STDOUT, start_new_session=True)
        except OSError as why:
            return Run(1, time.monotonic() - begun, f"it can't be started: {why}\n")
        RUNNING.add(run.pid)
        try:
            status = run.wait(LIMIT)
        except subprocess.TimeoutExpired:
            status = None
        finally:
            end_group(run.pid)
            run.wait()
            RUNNING.discard(run.pid)
        told.seek(0)
        text = told.read().decode(errors="replace")
    if status is None:
        text += f"\nit took more than {LIMIT} seconds, and was ended\n"
    return Run(1 if status is None else status, time.monotonic() - begun, text)


def end_group(group):
    """Ends what a script has left behind, and the script itself where it still runs."""
    try:
        os.killpg(group, signal.SIGKILL)
    except ProcessLookupError:
        pass


class Gate:
    """A run of scripts, and how each of them ended."""

    def __init__(self, chosen, programs):
        self.chosen, self.programs = chosen, programs
        self.runs, self.failed, self.unsteady = {}, [], []
        self.waiting = list(chosen)

    def play(self, script):
        return play(script, self.programs, SCRIPTS.index(script))

    def is_ready(self, script):
        """Whether what a script comes after has passed, if that is to run at all."""
        before = [one for one in self.chosen if one.name == script.after]
        return all(one.name in self.runs and self.runs[one.name].status == 0 for one in before)

    def note(self, script, run):
        self.runs[script.name] = run
        if run.status == 0:
            say(script, run, run.last_line() or "passed")
        else:
            say(script, run, f"FAILED, and runs once more at the end: {run.last_line()}")

    def side_by_side(self):
        """Runs those that may run beside others; each begins once what it comes after has passed."""
        with concurrent.futures.ThreadPoolExecutor(processors()) as pool:
            running = {}
            while True:
                ready = [one for one in self.waiting if not one.is_alone and self.is_ready(one)]
                for script in ready[:processors() - len(running)]:
                    self.waiting.remove(script)
                    running[pool.submit(self.play, script)] = script
                if not running:
                    return
                done = self.next_done(running)
                for one in done:
                    self.note(running.pop(one), one.result())

    def next_done(self, running):
        """Waits for a script to end. If this run is to end before, it ends all scripts."""
        try:
            return concurrent.futures.wait(running, return_when=concurrent.futures.FIRST_COMPLETED)[0]
        except BaseException:
            for group in set(RUNNING):
                end_group(group)
            raise

    def alone(self):
        for script in [one for one in self.waiting if one.is_alone and self.is_ready(one)]:
            self.waiting.remove(script)
            self.note(script, self.play(script))

    def again(self):
        """Runs what failed once more, and what waited for it, one after the other."""
        for script in self.chosen:
            first = self.runs.get(script.name)
            if first and first.status == 0:
                continue
            if not self.is_ready(script):
                self.fail(script, Run(1, 0.0, f"it comes after {script.after}, which failed\n"))
                continue
            run = self.play(script)
            self.runs[script.name] = run
            if first is None:
                self.note_last(script, run)
            elif run.status == 0:
                self.unsteady.append(script.name)
                say(script, run, "UNSTEADY: it passed this time, and failed before with")
                print(first.text, flush=True)
            else:
                self.fail(script, run)

    def note_last(self, script, run):
        if run.status == 0:
            say(script, run, run.last_line() or "passed")
        else:
            self.fail(script, run)

    def fail(self, script, run):
        self.failed.append(script.name)
        self.runs[script.name] = run
        say(script, run, f"FAILED with status {run.status}:")
        print(run.text, flush=True)

    def run(self):
        self.side_by_side()
        self.alone()
        self.again()
        return self

    def slowest(self):
        longest = sorted(self.runs.items(), key=lambda one: -one[1].seconds)[:5]
        return "the slowest: " + ", ".join(f"{name} {run.seconds:.0f} s" for name, run in longest)

    def has_passed(self):
        return not self.failed and len(self.unsteady) <= MOST_UNSTEADY

    def last_line(self):
        """How many passed, as a machine reads it. Too many unsteady ones count as failed."""
        failed = len(self.failed) or (0 if self.has_passed() else len(self.unsteady))
        names = f": {' '.join(self.unsteady)}" if self.unsteady else ""
        return f"{len(self.chosen) - failed} passed, {failed} failed, {len(self.unsteady)} unsteady{names}"


def say(script, run, words):
    print(f"{run.seconds:6.1f} s  {script.name}: {words}", flush=True)


def concerning(crate):
    """The names of the scripts that concern a crate."""
    fits = max((one for one in CONCERNS if crate.startswith(one)), key=len)
    return CONCERNS[fits].split()


def chosen_by(names):
    known = {one.name for one in SCRIPTS}
    if unknown := [name for name in names if name not in known]:
        sys.exit(f"no script is named {' '.join(unknown)}; there are {' '.join(sorted(known))}")
    return [one for one in SCRIPTS if not names or one.name in names]


def gate(names=(), folder=None):
    """Runs scripts by their names, or all of them."""
    begun, before = time.monotonic(), used()
    done = Gate(chosen_by(names), program_of(folder)).run()
    print(done.slowest())
    print(f"scripts: {(time.monotonic() - begun) / 60:.1f} minutes of the clock, {(used() - before) / 60:.1f} of processors", flush=True)
    return done


def main():
    signal.signal(signal.SIGTERM, lambda *_: sys.exit(143))
    words, folder, names = sys.argv[1:], None, []
    while words and words[0] in ("--programs", "--crate"):
        if words[0] == "--programs":
            folder = words[1]
            words = words[2:]
        else:
            names += [name for crate in words[1:] for name in concerning(crate)]
            words = []
    if any(word.startswith("-") for word in words):
        sys.exit(__doc__)
    done = gate([*names, *words], folder)
    print(done.last_line())
    sys.exit(0 if done.has_passed() else 1)


if __name__ == "__main__":
    main()
