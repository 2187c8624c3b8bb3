"""Times the cases of bench/sessions/run, which calls this once for each of its tables.

usage: times.py TOOLS DISK MEMORY PROGRAM CASE...

TOOLS is a folder with what was built to compare with. In DISK and MEMORY each run gets a folder.
"""

import os
import re
import shutil
import signal
import statistics
import subprocess
import sys
import tempfile
import time
from pathlib import Path
from typing import NamedTuple

import scripts

RUNS = int(os.environ.get("RUNS", 3))
# A start is short, and its best time is taken off each other time.
STARTS = 5
DIVIDE = int(os.environ.get("DIVIDE", 1))
LIMIT = float(os.environ.get("LIMIT", 120))
SEED, KEYS = "7", 1_000
PEERS = ("leveldb", "rocksdb")
# Stops what a counter runs, and not the counter, which then tells what it has counted.
STOP = ["timeout", "--foreground", "--signal=KILL", str(LIMIT)]
STOPPED = (124, 137, -signal.SIGKILL)
CALLS = {"yields": ("sched_yield",), "syncs": ("fsync", "fdatasync"), "futex": ("futex",)}
CALL_NAMES = [it for names in CALLS.values() for it in names]


# ---- the cases


class Work(NamedTuple):
    """What a program does in a run: a script, or a load where that is empty."""

    label: str
    batches: int
    script: bytes = b""


class Case(NamedTuple):
    """Works to compare. Each one is also told in times of the one that is labelled as the base."""

    title: str
    is_on_disk: bool
    works: list
    base: str = ""


def part(size):
    return max(size // DIVIDE, 1)


def work_of(label, script):
    return Work(label, script.count(b"commit"), script)


def committing(sessions, turns, rounds, is_synced):
    wait, how, where = b"nosync", "no sync", "a memory file system"
    if is_synced:
        wait, how, where = b"sync", "a sync each", "this disk"
    work = work_of("", scripts.commits(sessions, part(turns), rounds, wait))
    title = f"{sessions} sessions, {work.batches} commits with {how} in {rounds} rounds, on {where}"
    return Case(title, is_synced, [work])


def committing_beside():
    sessions, turns, syncs = 7, part(11_428), part(10)
    works = [
        work_of("beside", scripts.beside(sessions, turns, syncs)),
        work_of("without", scripts.beside(sessions, turns, 0)),
        work_of("alone", scripts.beside(sessions, 0, syncs)),
    ]
    title = f"{sessions} sessions, {works[1].batches} commits with no sync, beside one session"
    return Case(f"{title} with {syncs} syncs or without it, on this disk", True, works, "without")


def reading(sessions):
    rounds, count = 20, part(384_000)
    work = work_of("", scripts.reads(sessions, count, rounds))
    title = f"{count} reads of {scripts.KEYS} keys by {sessions} sessions in {rounds} rounds"
    return Case(f"{title}, on a memory file system", False, [work])


def loading():
    work = Work("", part(200_000))
    title = f"load {SEED} {work.batches}, which has 4 sessions, on a memory file system"
    return Case(title, False, [work])


def meeting():
    rounds = part(1_000)
    work = work_of("", scripts.empty_rounds(rounds))
    title = f"{rounds} empty rounds of {scripts.SESSIONS} sessions, on a memory file system"
    return Case(title, False, [work])


def committing_once():
    rounds, sessions = part(100), scripts.SESSIONS
    script = scripts.commits(sessions, 1, rounds, b"nosync")
    works = [work_of("by each", script), work_of("by one", scripts.by_one(script))]
    title = f"{rounds} rounds of {sessions} commits, by each of {sessions} sessions or all by one"
    return Case(f"{title}, on a memory file system", False, works, "by one")


CASES = {
    "synced": lambda: [committing(16, 100, 10, True), committing(64, 50, 10, True)],
    "unsynced": lambda: [committing(4, 1_250, 20, False), committing(64, 78, 20, False)],
    "beside": lambda: [committing_beside()],
    "reads": lambda: [reading(1), reading(4), reading(64)],
    "load": lambda: [loading()],
    "empty": lambda: [meeting()],
    "rounds": lambda: [committing_once()],
}


# ---- the programs, and what they say


def programs_of(tools, program):
    """Returns how each program begins a replay and a load. The bare loop has no replay."""
    found = {"pebble": ([program, "replay"], [program, "load"])}
    for name in PEERS:
        if (tools / name).exists():
            found[name] = tuple([tools / name, "store", it] for it in ("replay", "load"))
    return {**found, "loop": (None, [tools / "loop"])}


def command_of(name, begins, work):
    replay, load = begins
    if work.script:
        return replay
    return [*load, SEED, str(work.batches), *(["log"] if name == "loop" else [])]


def live_keys(count):
    """Returns how many keys a load leaves: of eight batches in a row the last deletes one key."""
    kept = min(count, KEYS)
    return kept - kept // 8 + (count > KEYS and count % 8 >= 4)


def look_over(name, work, said):
    """Ends the bench where a program did not do all of a work."""
    last = said.splitlines()[-1] if said else ""
    count = work.batches
    if name == "loop":
        wanted = ""
    elif not work.script:
        wanted = rf"load batches {count} (visible \d+ )?live {live_keys(count)}\b.*"
    elif name == "pebble":
        wanted = rf"end visible \d+ batches {count} acked {count} segments \d+ closed"
    else:
        wanted = f"end batches {count}"
    if not re.fullmatch(wanted, last):
        sys.exit(f"{name} was to do {count} batches, and ends with {last!r}")


# ---- a run


class Cost(NamedTuple):
    """Seconds by the clock and by the processors, and whether the run was not stopped."""

    clock: float
    used: float
    is_whole: bool


def usage_of(child, limit):
    """Waits for a child, which is stopped at the limit if any, and returns what it used."""

    def stop(*_):
        os.killpg(child.pid, signal.SIGKILL)

    signal.signal(signal.SIGALRM, stop)
    signal.setitimer(signal.ITIMER_REAL, limit)
    try:
        # It stays a child until the alarm is off, which so stops nothing else.
        os.waitid(os.P_PID, child.pid, os.WEXITED | os.WNOWAIT)
    except SystemExit:
        stop()
        raise
    finally:
        signal.setitimer(signal.ITIMER_REAL, 0)
        _, status, usage = os.wait4(child.pid, 0)
        child.returncode = os.waitstatus_to_exitcode(status)
    return usage


class Bench:
    """Where the runs are made, and of which programs."""

    def __init__(self, tools, disk, memory, program):
        self.disk, self.memory, self.given = disk, memory, memory / "script"
        self.programs = programs_of(tools, program)
        self.counter = chosen_counter(memory / "counts")

    def run(self, name, work, is_on_disk, before=()):
        """Runs a program in a new folder, behind the words of a counter if any."""
        self.given.write_bytes(work.script)
        words = [*before, *command_of(name, self.programs[name], work)]
        with tempfile.TemporaryDirectory(dir=self.disk if is_on_disk else self.memory) as folder:
            if is_on_disk:
                # So that no run waits for what the one before it left to be written.
                subprocess.run(["sync", "-f", folder], check=True)
            cost, status, said = self.started(words, folder, 0 if before else LIMIT)
        if cost.is_whole and status:
            sys.exit(f"{name} ended with status {status}")
        if cost.is_whole:
            look_over(name, work, said)
        return cost

    def started(self, words, folder, limit):
        """Runs a command in a folder, and returns its cost, its status and what it said."""
        with (
            open(self.given, "rb") as given,
            tempfile.TemporaryFile(dir=self.memory) as text,
        ):
            # A group, so that all of it can be stopped. To a session of its own the scheduler may
            # give as much of the processors as to all busy loops.
            how = {"stdin": given, "stdout": text, "cwd": folder, "preexec_fn": os.setpgrp}
            begun = time.perf_counter()
            child = subprocess.Popen(words, **how)
            usage = usage_of(child, limit)
            clock = time.perf_counter() - begun
            text.seek(0)
            used, status = usage.ru_utime + usage.ru_stime, child.returncode
            return Cost(clock, used, status not in STOPPED), status, text.read().decode()

    def start(self, name, is_on_disk):
        """Returns what a run of one batch costs."""
        script = b"" if name == "loop" else scripts.one_batch()
        return self.run(name, Work("", 1, script), is_on_disk)


def marked(cost, text):
    """Marks what is told of a run that was stopped: it would be more."""
    return f"{text}" if cost.is_whole else f">{text}"


# ---- counts of calls


def strace_counts(text):
    rows = [it.split() for it in text.splitlines()]
    return {it[-1]: int(it[3]) for it in rows if it and it[-1] in CALL_NAMES}


def perf_counts(text):
    rows = [it.split(",") for it in text.splitlines()]
    return {it[2].rpartition("sys_enter_")[2]: int(it[0]) for it in rows if it[0].isdigit()}


def chosen_counter(file):
    """Returns how to count a command's calls into a file, and how to read that, or None."""
    calls = ",".join(CALL_NAMES)
    events = ",".join(f"syscalls:sys_enter_{it}" for it in CALL_NAMES)
    found = {
        "strace": (["-f", "--seccomp-bpf", "-c", "-e", f"trace={calls}", "-o"], strace_counts),
        "perf": (["stat", "-x", ",", "-e", events, "-o"], perf_counts),
    }
    quiet = {"stdout": subprocess.DEVNULL, "stderr": subprocess.DEVNULL}
    for name in [os.environ["COUNTER"]] if os.environ.get("COUNTER") else found:
        if name in found and shutil.which(name):
            words = [name, *found[name][0], file]
            if subprocess.run([*words, "true"], **quiet).returncode == 0:
                print(f"calls are counted by {name}", flush=True)
                return words, found[name][1], file
    print("no calls are counted", flush=True)
    return None


def counted(bench, name, work, is_on_disk):
    """Returns how often a run makes each call, as cells of a table."""
    if not bench.counter:
        return ["-"] * len(CALLS)
    words, read, file = bench.counter
    file.write_text("")
    cost = bench.run(name, work, is_on_disk, [*words, *STOP])
    counts = read(file.read_text())
    sums = [sum(counts.get(it, 0) for it in names) for names in CALLS.values()]
    return [marked(cost, it) for it in sums]


# ---- a table


def measured(bench, case):
    """Returns the costs of each work by each program, in turn, and the least one of its starts.

    What was stopped has that cost alone, and is not run again.
    """
    names = [it for it in bench.programs if it != "loop" or not case.works[0].script]
    costs = {(name, work.label): [] for work in case.works for name in names}
    starts = {name: [] for name in names}
    for _ in range(RUNS):
        for name in names * STARTS:
            starts[name].append(bench.start(name, case.is_on_disk))
        for work in case.works:
            for name in names:
                ran = costs[name, work.label]
                if not ran or ran[-1].is_whole:
                    ran.append(bench.run(name, work, case.is_on_disk))
                    del ran[: 0 if ran[-1].is_whole else -1]
    return costs, {name: Cost(*map(min, zip(*ran))) for name, ran in starts.items()}


def above(costs, start):
    """Returns the best and the median cost, both above that of a start."""
    clocks, used, _ = zip(*costs)
    parts = ((clocks, start.clock), (used, start.used))
    return [
        Cost(*(max(pick(part) - least, 0) for part, least in parts), costs[-1].is_whole)
        for pick in (min, statistics.median)
    ]


def ratios(costs, others):
    """Returns how many times the others' clock the best and the median take, as a cell."""
    cells = [
        marked(mine, f"{mine.clock / other.clock:.2f}")
        if mine.clock and other.clock and other.is_whole
        else "-"
        for mine, other in zip(costs, others)
    ]
    return "".join(f"{it:>8}" for it in cells)


def table(bench, case):
    costs, starts = measured(bench, case)
    rows = {key: above(ran, starts[key[0]]) for key, ran in costs.items()}
    others = [it for it in starts if it != "pebble"]
    bases = [case.base] if case.base else []
    heads = [f"{'x ' + it:>16}" for it in others + bases]
    times = f"{'seconds':>9}{'median':>9}{'used':>9}{'median':>9}{'start':>8}"
    counts = (f"{it:>9}" for it in CALLS)
    print(f"\n{case.title}\n{'':16}{times}", *heads, *counts, sep="", flush=True)
    for name, label in ((name, work.label) for work in case.works for name in starts):
        row = rows[name, label]
        cells = [f"{marked(it, f'{it.clock:.3f}'):>9}" for it in row]
        cells += [f"{marked(it, f'{it.used:.3f}'):>9}" for it in row]
        parts = [ratios(row, rows[it, label]) for it in others]
        parts += [ratios(row, rows[name, it]) for it in bases]
        work = next(it for it in case.works if it.label == label)
        counts = (f"{it:>9}" for it in counted(bench, name, work, case.is_on_disk))
        start = f"{starts[name].clock:>8.3f}"
        print(f"{name + ' ' + label:16}", *cells, start, *parts, *counts, sep="", flush=True)


def main():
    tools, disk, memory = (Path(it) for it in sys.argv[1:4])
    program, names = sys.argv[4], sys.argv[5:]
    signal.signal(signal.SIGTERM, lambda number, _: sys.exit(128 + number))
    bench = Bench(tools, disk, memory, program)
    for name in names:
        for case in CASES[name]():
            table(bench, case)


if __name__ == "__main__":
    main()
