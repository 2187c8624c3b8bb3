"""Cases that run the program: what the checks of its behaviour share."""

import contextlib
import difflib
import os
import subprocess
import tempfile
from pathlib import Path

TOP = Path(__file__).resolve().parent.parent
BUILT = os.environ.get("PEBBLE")
# The program that was built, where it is named, or else the launcher, which builds it first.
PROGRAM = BUILT or str(TOP / "pebble")
# What the launcher starts, for cases that the launcher's own shell would change.
STARTED = BUILT or str(TOP / "build" / "pebble")
# A run that takes longer hangs, however busy the machine is.
SECONDS = 1_200

passed, failed = [], []


def note(name, differences):
    """Counts a case, and prints in what it differs, if it does."""
    (failed if differences else passed).append(name)
    for it in [f"differs: {name}"] * bool(differences) + differences:
        print(it, flush=True)


def shown(text):
    """Returns bytes as printable lines, each cut to a width that fits a report."""
    return [repr(it)[2:-1][:120] for it in text.splitlines(keepends=True)]


def differences(ran, output, status):
    """Lists how a run differs from the output and the status that are wanted. An output of None is not compared."""
    found = []
    if ran.returncode not in (status if isinstance(status, tuple) else (status,)):
        found.append(f"  status {ran.returncode}, and {status} is wanted")
    if output is not None and ran.stdout != output:
        lines = difflib.unified_diff(shown(output), shown(ran.stdout), "wanted", "came", lineterm="")
        found += ["  standard output differs:", *(f"  {it}" for it in list(lines)[:20])]
    if ran.stderr:
        found += ["  written to standard error:", *(f"  {it}" for it in shown(ran.stderr)[:20])]
    return found


@contextlib.contextmanager
def folder_of(files):
    """Makes a folder with these files, by their paths in it."""
    with tempfile.TemporaryDirectory(prefix="pebble-check-") as folder:
        for name, content in files.items():
            file = Path(folder) / name
            file.parent.mkdir(exist_ok=True, parents=True)
            file.write_bytes(content)
        yield folder


def run_in(folder, words, **how):
    """Runs a command in a folder."""
    how = {"stdout": subprocess.PIPE, "stderr": subprocess.PIPE, "timeout": SECONDS, **how}
    try:
        return subprocess.run(words, cwd=folder, **how)
    except subprocess.TimeoutExpired:
        return subprocess.CompletedProcess(words, f"none within {how['timeout']} seconds", b"", b"")


def file_difference(name, came, wanted):
    """Says how a file differs from the one that is wanted. None is no file."""
    if max(len(it or b"") for it in (came, wanted)) <= 200:
        came, wanted = (it and it.hex(" ") for it in (came, wanted))
        return f"  the file {name!r} is {came!r}, and {wanted!r} is wanted"
    if came is None or wanted is None:
        came, wanted = ("none" if it is None else f"one of {len(it)} bytes" for it in (came, wanted))
        return f"  of the file {name!r} there is {came}, and {wanted} is wanted"
    place = next((i for i, (a, b) in enumerate(zip(came, wanted)) if a != b), min(len(came), len(wanted)))
    return f"  the file {name!r} has {len(came)} bytes, {len(wanted)} are wanted, and it differs from place {place} on"


def changes(folder, wanted):
    """Lists how the files in a folder differ from those that are wanted."""
    came = {str(it.relative_to(folder)): it.read_bytes() for it in Path(folder).rglob("*") if it.is_file()}
    names = sorted({*came, *wanted})
    return [file_difference(it, came.get(it), wanted.get(it)) for it in names if came.get(it) != wanted.get(it)]


def check_files_of(name, folder, words, output, status, files, **how):
    """Checks a command in a folder, and which files are there then."""
    ran = run_in(folder, [PROGRAM, *words], **{"input": b"", **how})
    note(name, differences(ran, output, status) + changes(folder, files))


def limited(blocks, *words):
    """A command of the program, run where no file may have more than so many blocks of 512 bytes.

    A write that would go on behind them is taken up to there, and the next one is refused.
    """
    return ["sh", "-c", "trap '' XFSZ; ulimit -f \"$0\"; exec \"$@\"", str(blocks), PROGRAM, *words]


def ends(name, groups):
    """Runs groups of cases over the built program, prints the last line of a check, and returns its status."""
    # What the launcher says while it builds is for the reader, and no part of a case.
    try:
        built = subprocess.run([PROGRAM, "--help"], stdin=subprocess.DEVNULL, stdout=subprocess.DEVNULL).returncode
    except OSError as error:
        built = error
    if built not in range(9):
        note("the program", [f"  it is not built: {built}"])
    else:
        for group in groups:
            group()
    print(f"{name}: {len(passed)} passed, {len(failed)} failed")
    return 1 if failed else 0
