"""The scripts of bench/sessions/run, in the program's language. Each function returns one as bytes.

Each session sets a key of its own to values of 32 digits, but where keys are read. In a round the sessions take turns.
"""

import itertools
import random

SESSIONS = 64
KEYS = 2_000


def commit(session, wait, number):
    return b"commit %d %s set k%04d %032d\n" % (session, wait, session, number)


def one_batch():
    """One commit, for which the log is begun, synced and closed."""
    return commit(0, b"nosync", 0)


def commits(sessions, turns, rounds, wait):
    """Rounds in which each session commits some times."""
    numbers = itertools.count()
    text = []
    for _ in range(rounds):
        for _ in range(turns):
            text += [commit(it, wait, next(numbers)) for it in range(sessions)]
        text.append(b"round\n")
    return b"".join(text)


def beside(sessions, turns, syncs):
    """A round in which some sessions commit without a sync, and the one after them with syncs."""
    text = [commit(sessions, b"sync", it) for it in range(syncs)]
    for turn in range(turns):
        text += [commit(it, b"nosync", turn) for it in range(sessions)]
    return b"".join(text)


def reads(sessions, count, rounds):
    """A round in which each of some keys is set, and then rounds of reads of one of them by chance."""
    chance = random.Random(4)
    text = [b"commit %d nosync set k%04d %032d\n" % (it % sessions, it, it) for it in range(KEYS)]
    for _ in range(rounds):
        text.append(b"round\n")
        text += [b"get %d k%04d\n" % (it % sessions, chance.randrange(KEYS)) for it in range(count // rounds)]
    return b"".join(text)


def empty_rounds(rounds):
    """One commit of the last session, and then rounds in which no session has a line."""
    return commit(SESSIONS - 1, b"nosync", 0) + b"round\n" * rounds


def by_one(script):
    """The same batches in the same rounds, all of them by one session."""
    lines = [it.split(b" ", 2) for it in script.splitlines()]
    return b"".join(b" ".join([it[0], b"0", *it[2:]] if it[1:] else it) + b"\n" for it in lines)
