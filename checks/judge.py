"""A judge of replays: it reads a script and the text that answers it, and says which rule the text breaks, if it breaks one.

It is written from docs/formats/program.md ("The script", "Printed bytes", "The replies", "Which replies are legal", "The journal of a
run", "Statuses"), and knows nothing of how the program comes to its replies. It takes each script for accepted. No script is so
long that it commits more batches than a run may have, so the one limit that it looks for is that on numbers.
"""

import re
from bisect import bisect_left, bisect_right
from collections import defaultdict
from dataclasses import dataclass
from itertools import groupby
from operator import attrgetter

import segments
from segments import FIRST_NUMBER

NUMBER_MAX = 2**56 - 1
SEGMENTS_MAX = 10
DONE, DISK, LIMIT = 0, 5, 8

NUMBER = "(0|[1-9][0-9]*)"
COMMITTED = re.compile(f"s{NUMBER} commit {NUMBER} {NUMBER}( synced| unsynced|)")
REFUSED = re.compile(f"s{NUMBER} commit (dead|limit)")
GOT = re.compile(f"s{NUMBER} get ([!-~]+) (?:= ([!-~]+)|none) @{NUMBER}")
END = re.compile(f"end visible {NUMBER} batches {NUMBER} acked {NUMBER} segments {NUMBER} (closed|halted|dead)")


class Illegal(Exception):
    """Says which rule a text breaks."""


def require(holds, rule):
    if not holds:
        raise Illegal(rule)


# ---- batches and the store


def printed(word):
    """A key, a value or a note as every text has it."""
    return "".join(it if "!" <= it <= "~" and it != "\\" else f"\\x{ord(it):02x}" for it in word) or "\\e"


def counted(entries):
    return sum(it[0] != "note" for it in entries)


SPELLED = {
    "set": segments.set_of,
    "del": segments.delete_of,
    "rdel": segments.range_delete_of,
    "note": segments.note_of,
}


@dataclass(frozen=True)
class Batch:
    """A first number, and entries: each is the words that a script has for it."""

    first: int
    entries: tuple

    @property
    def count(self):
        return counted(self.entries)

    def bytes(self):
        return segments.batch(self.first, *(SPELLED[kind](*(it.encode() for it in words)) for kind, *words in self.entries))


class Store:
    """Batches in a row, from a number on."""

    def __init__(self, batches, first=FIRST_NUMBER):
        self.batches = batches
        self.ends = [first]
        # Of each key the places of the entries that name it, and what each leaves it with. A place is a batch's and an entry's.
        self.versions = defaultdict(lambda: ([], []))
        # The places of the range deletes, and the ranges.
        self.ranges = ([], [])
        for place, batch in enumerate(batches):
            require(batch.first == self.ends[-1], f"number {batch.first} stands where {self.ends[-1]} is next")
            self.ends.append(batch.first + batch.count)
            for number, (kind, key, *value) in enumerate(batch.entries):
                if kind != "note":
                    places, left = self.ranges if kind == "rdel" else self.versions[key]
                    places.append((place, number))
                    left.append((key, *value) if kind == "rdel" else value[0] if kind == "set" else None)
        require(self.ends[-1] <= NUMBER_MAX, "a batch ends past the greatest number")
        self.places = {it.first: place for place, it in enumerate(batches)}
        self.prefixes = {end: n for n, end in enumerate(self.ends)}

    def answer(self, key, n):
        """The value of a key after the first n batches, or None."""
        places, values = self.versions.get(key, ((), ()))
        last = bisect_left(places, (n, 0))
        if not last or values[last - 1] is None:
            return None
        later = slice(bisect_left(self.ranges[0], places[last - 1]), bisect_left(self.ranges[0], (n, 0)))
        return None if any(start <= key < end for start, end in self.ranges[1][later]) else values[last - 1]

    def text(self):
        """The text by which the store is recovered."""
        n = len(self.batches)
        live = {key: value for key in self.versions if (value := self.answer(key, n)) is not None}
        shown = [f"{printed(key)} = {printed(live[key])}" for key in sorted(live)]
        return "".join(f"{it}\n" for it in (*shown, f"end batches {n} next {self.ends[-1]}")).encode()


# ---- scripts


@dataclass(frozen=True)
class Commit:
    session: int
    syncs: bool
    entries: tuple


@dataclass(frozen=True)
class Get:
    session: int
    key: str


@dataclass
class Script:
    """The lines of each round, in the order of their replies: by session, and those of one session as they stand."""

    rounds: list
    halts: bool
    stalls: bool


def line_of(kind, session, *words):
    if kind == "get":
        return Get(int(session), *words)
    how, *rest = words
    entries = tuple(tuple(entry) for separates, entry in groupby(rest, ";".__eq__) if not separates)
    return Commit(int(session), how == "sync", entries)


def read_script(text):
    script = Script([[]], False, False)
    for said in text.decode("latin-1").split("\n"):
        words = re.split("[ \t]", said)
        if not said or said[0] == "#":
            continue
        if words[0] == "round":
            script.rounds.append([])
        elif words[0] == "halt":
            script.halts = True
        elif words[0] == "stall":
            script.stalls = True
        else:
            script.rounds[-1].append(line_of(*words))
    script.rounds = [sorted(it, key=attrgetter("session")) for it in script.rounds]
    return script


# ---- replies


@dataclass(frozen=True)
class Numbered:
    """A commit that made a batch, and the word that stands behind: synced, unsynced or none."""

    first: int
    count: int
    word: str


@dataclass(frozen=True)
class Got:
    """A read: the value as it is printed or None, and the number that was visible."""

    value: str
    visible: int


DEAD, AT_LIMIT = "dead", "limit"


@dataclass(frozen=True)
class End:
    visible: int
    batches: int
    acked: int
    segments: int
    word: str


def reply_to(line, said):
    """Reads the reply to a line."""
    if isinstance(line, Get):
        form = GOT.fullmatch(said)
        require(form and form[2] == printed(line.key), f"{said!r} is no reply to a get of {line.key}")
        reply = Got(form[3], int(form[4]))
    elif form := REFUSED.fullmatch(said):
        reply = form[2]
    else:
        form = COMMITTED.fullmatch(said)
        require(form, f"{said!r} is no reply to a commit")
        reply = Numbered(int(form[2]), int(form[3]), form[4].strip())
        require(bool(reply.word) == line.syncs, f"{said!r} answers a commit {'with' if line.syncs else 'without'} a sync")
        require(reply.count == counted(line.entries), f"{said!r} has not the count of its batch")
    require(int(form[1]) == line.session, f"{said!r} stands where session {line.session} is answered")
    return reply


def read_replies(script, text):
    """Returns each round as pairs of a line and its reply, and the end line."""
    require(text.isascii() and text.endswith(b"\n"), "the text does not end with a line")
    *replies, last = text.decode().removesuffix("\n").split("\n")
    asked = sum(map(len, script.rounds))
    require(len(replies) == asked, f"{len(replies)} replies to {asked} lines")
    said = iter(replies)
    rounds = [[(line, reply_to(line, next(said))) for line in lines] for lines in script.rounds]
    end = END.fullmatch(last)
    require(end, f"{last!r} is no end line")
    return rounds, End(*map(int, end.groups()[:4]), end[5])


# ---- the rules


def is_numbered(reply):
    return isinstance(reply, Numbered)


class Judgement:
    """A script over a base, and the replies of its text, whose batches are the store's behind the base."""

    def __init__(self, script, text, base):
        self.script, self.text, self.base = read_script(script), text, len(base)
        self.rounds, self.end = read_replies(self.script, text)
        made = [Batch(reply.first, line.entries) for lines in self.rounds for line, reply in lines if is_numbered(reply)]
        self.made = sorted(made, key=attrgetter("first"))
        self.store = Store([*base, *self.made], base[0].first if base else FIRST_NUMBER)

    def seen_after(self, line, reply, seen):
        """How much of the store a session has seen once a line is answered, where it had seen so much before."""
        place = f"session {line.session}, {reply}"
        if is_numbered(reply):
            require(self.store.places[reply.first] >= seen, f"{place}: the batch stands before what its session has seen")
            require(reply.word != "unsynced" or self.end.word == "dead", f"{place}: the journal did not die")
            return self.store.places[reply.first] + 1
        if isinstance(reply, Got):
            n = self.store.prefixes.get(reply.visible)
            require(n is not None, f"{place}: no batch ends at this number")
            require(n >= seen, f"{place}: the session had seen up to {self.store.ends[seen]}")
            value = self.store.answer(line.key, n)
            require(reply.value == (None if value is None else printed(value)), f"{place}: the value there is {value}")
            return n
        if reply == DEAD:
            require(self.end.word == "dead", f"{place}: the journal did not die")
            return seen
        # The fewest batches after which the commit would end past the greatest number.
        full = bisect_right(self.store.ends, NUMBER_MAX - counted(line.entries))
        require(full < len(self.store.ends), f"{place}: no limit is reached")
        return max(seen, full)

    def judge_round(self, lines, begin):
        """Judges a round that begins after so many batches of the store, and returns after how many it ends."""
        made = sorted(self.store.places[reply.first] for _, reply in lines if is_numbered(reply))
        end = begin + len(made)
        require(made == list(range(begin, end)), "the batches of a round are not those between its beginning and its end")
        for session, own in groupby(lines, lambda it: it[0].session):
            seen = begin
            for line, reply in own:
                seen = self.seen_after(line, reply, seen)
                require(seen <= end, f"session {session} sees a batch of a later round")
        return end

    def judge_death(self):
        """Judges that a journal which a reply tells as dead is told as alive by no later one."""
        before = False
        for lines in self.rounds:
            later = before
            for session, own in groupby(lines, lambda it: it[0].session):
                dead = before
                for _, reply in own:
                    lives = is_numbered(reply) or reply == AT_LIMIT
                    require(not (dead and lives), f"session {session}, {reply}: the journal was dead before")
                    dead |= reply == DEAD or is_numbered(reply) and reply.word == "unsynced"
                later |= dead
            before = later

    def judge_acked(self):
        for reply in (reply for lines in self.rounds for _, reply in lines if is_numbered(reply) and reply.word):
            place = self.store.places[reply.first] - self.base
            require((place < self.end.acked) == (reply.word == "synced"), f"{reply}, and {self.end.acked} batches are acked")

    def judge_end(self, faults):
        end, halts = self.end, self.script.halts
        require(end.visible == self.store.ends[-1], f"{end}: the last batch ends at {self.store.ends[-1]}")
        require(end.batches == len(self.made), f"{end}: the replies tell {len(self.made)} batches")
        require(end.word in ("dead", "halted" if halts else "closed"), f"{end}: this is not how the script ends")
        require(end.acked <= end.batches, f"{end}: more are acked than there are")
        require(end.acked == end.batches or end.word != "closed", f"{end}: a closed journal has synced all")
        require(bool(end.segments) == bool(end.batches) or halts and not end.segments, f"{end}: segments are for batches")
        require(end.segments or not end.acked, f"{end}: without a segment nothing is acked")
        require(end.segments <= SEGMENTS_MAX, f"{end}: too many segments")
        require(end.segments == SEGMENTS_MAX or end.word != "dead", f"{end}: a dead journal has begun them all")
        require(end.word != "dead" or faults, f"{end}: a journal dies by faults")
        require(end.segments <= 1 or faults or self.script.stalls, f"{end}: there are no stalls and no faults")

    def judge_status(self, status):
        limit = any(reply == AT_LIMIT for lines in self.rounds for _, reply in lines)
        wanted = DISK if self.end.word == "dead" else LIMIT if limit else DONE
        require(status == wanted, f"status {status}, and {wanted} is wanted")


def judge(script, text, status=DONE, base=(), faults=False):
    """Judges the text of a script over a base, and its status. Its disk may have counted faults, or did not."""
    judgement = Judgement(script, text, base)
    end = judgement.base
    for lines in judgement.rounds:
        end = judgement.judge_round(lines, end)
    judgement.judge_death()
    judgement.judge_acked()
    judgement.judge_end(faults)
    judgement.judge_status(status)
    return judgement


# ---- dumps


def read_dump(text):
    """Returns the segments of a dump, each its name and its batches with entries as they are printed, and the last line."""
    *said, last = text.decode().splitlines()
    found = []
    for line in said:
        kind, *words = line.split(" ")
        if kind == "segment":
            found.append((words[0], []))
        elif kind == "batch":
            found[-1][1].append((int(words[0]), int(words[1]), []))
        else:
            found[-1][1][-1][2].append(line)
    return found, last


def dumped(batch):
    """A batch as a dump has it."""
    return batch.first, batch.count, [" ".join((kind, *map(printed, words))) for kind, *words in batch.entries]
