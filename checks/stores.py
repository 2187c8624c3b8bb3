"""Random stores, of which several checks make their cases, and what each holds at a number.

They have sets, deletes of keys and of ranges, and notes, many to a batch, and some lie above a table. A store keeps every entry with
its number, and answers by the last entry below one.
"""

from collections import namedtuple
from pathlib import Path

import segments
from directories import end, lines
from harness import PROGRAM, folder_of, run_in
from judge import printed
from segments import FIRST_NUMBER

TWO, THREE, TABLE = "wal_secondary/000002.log", "wal/000003.log", "wal/000001.tab"

# Keys that lines can name, and keys that they cannot.
NAMED = (b"a", b"aa", b"ab", b"b", b"b!", b"c", b"d\\", b"~", b"#x", b"acct/1", b"acct/10", b"acct/2")
OTHERS = (b"", b"\0", b"a\0", b"a ", b"b;", b"\n", b"\x7f", b"\xff", b"\xff\xff")

# The bytes of a word.
SPOKEN = set(range(0x21, 0x7F)) - set(b";")

Entry = namedtuple("Entry", "kind key other")
# An entry that took a number.
Numbered = namedtuple("Numbered", "number kind key other")
# A store, all batches that it was made of, whether a table covers some of them, and its files.
Made = namedtuple("Made", "store batches tabled files")

SPELLED = {
    "set": lambda it: segments.set_of(it.key, it.other),
    "del": lambda it: segments.delete_of(it.key),
    "rdel": lambda it: segments.range_delete_of(it.key, it.other),
    "note": lambda it: segments.note_of(it.key),
}


def shown(word):
    return printed(word.decode("latin-1"))


def takes_number(entries):
    """Whether a batch has an entry that is no note."""
    return any(it.kind != "note" for it in entries)


class Store:
    """All entries of batches in a row, from a floor on."""

    def __init__(self, below, batches):
        """Takes pairs of a table, by the number that comes next after them, and the batches behind it."""
        pairs, self.floor = below
        self.entries, self.next = [], self.floor
        for number, (key, value) in enumerate(pairs, self.floor - len(pairs)):
            self.entries.append(Numbered(number, "set", key, value))
        for entry in (it for entries in batches for it in entries if it.kind != "note"):
            self.entries.append(Numbered(self.next, *entry))
            self.next += 1
        # A batch that takes no number is passed over.
        self.batches = len(pairs) + sum(map(takes_number, batches))

    def answer(self, key, at):
        """The value of a key at a number, or None: what the last entry below the number that says something of it leaves."""
        for number, kind, first, other in reversed(self.entries):
            if number < at and (first <= key < other if kind == "rdel" else first == key):
                return other if kind == "set" else None
        return None

    def pairs(self, at, start=b""):
        """The keys from one on that have a value at a number, in the order of bytes."""
        keys = sorted({it.key for it in self.entries if it.kind == "set" and it.key >= start})
        return [(key, value) for key in keys if (value := self.answer(key, at)) is not None]

    def text(self):
        """The text by which the store is recovered."""
        said = [f"{shown(key)} = {shown(value)}" for key, value in self.pairs(self.next)]
        return lines(*said, end(self.batches, self.next))


# ---- random stores


def any_value(chance):
    return b"%d" % chance.randrange(1_000) if chance.random() < 0.9 else chance.choice((b"", b"\\", b"\x80 "))


def any_entry(chance, keys):
    how = chance.random()
    if how < 0.55:
        return Entry("set", chance.choice(keys), any_value(chance))
    if how < 0.72:
        return Entry("del", chance.choice(keys), None)
    if how < 0.88:
        # Some ranges run backwards, or from a key to itself.
        first, other = (chance.choice((*keys, b"", b"a", b"zz")) for _ in range(2))
        return Entry("rdel", *(sorted((first, other)) if chance.random() < 0.8 else (first, other)))
    return Entry("note", b"n" * chance.randrange(3), None)


def any_batch(chance, keys):
    """The entries of a batch. Some change one key over and over, and some are notes alone."""
    if chance.random() < 0.2:
        keys = [chance.choice(keys)]
    entries = [any_entry(chance, keys) for _ in range(chance.choice((1, 1, 2, 3, 6)))]
    return entries


def spelled(batches, first):
    """The bytes of batches from a number on."""
    written = []
    for entries in batches:
        written.append(segments.batch(first, *(SPELLED[it.kind](it) for it in entries)))
        first += sum(it.kind != "note" for it in entries)
    return written


def any_segments(chance, batches, number):
    """The files of segments that hold those batches, from a number on: one or two WALs behind the first one."""
    written = spelled(batches, number)
    cut = chance.choice((0, len(written), chance.randrange(len(written) + 1)))
    return {path: segments.segment(it, int(path[-10:-4])) for path, it in ((TWO, written[:cut]), (THREE, written[cut:])) if it}


def word_of(it):
    """An entry as a script has it."""
    return b" ".join(word for word in (it.kind.encode(), it.key, it.other) if word is not None)


def replayed(batches, flushed):
    """The files that runs of the program leave, with a flush between those of the first batches and those of the others."""
    with folder_of({}) as folder:
        for count, part in enumerate((batches[:flushed], batches[flushed:])):
            if count == 1 and flushed:
                run_in(folder, [PROGRAM, "flush"], input=b"")
            script = b"".join(b"commit 0 nosync %s\n" % b" ; ".join(map(word_of, it)) for it in part)
            run_in(folder, [PROGRAM, "replay"], input=script)
        return {str(it.relative_to(folder)): it.read_bytes() for it in Path(folder).rglob("*") if it.is_file()}


def is_spoken(entries):
    """Whether a script can have a batch."""
    words = [it for entry in entries for it in entry[1:] if it is not None]
    return takes_number(entries) and all(it and set(it) <= SPOKEN for it in words)


def any_store(chance, sort):
    """A store: of segments alone, of a table and segments above it, or made by the program."""
    keys = chance.sample((*NAMED, *OTHERS) if sort < 2 else NAMED, chance.choice((2, 4, 9)))
    batches = [any_batch(chance, keys) for _ in range(chance.choice((0, 1, 4, 12, 30)))]
    if sort >= 2:
        batches = [it for it in batches if is_spoken(it)] or [[Entry("set", b"a", b"1")]]
    covered = batches[: chance.randrange(len(batches) + 1)] if sort % 2 else []
    below = Store(([], FIRST_NUMBER), covered)
    pairs = below.pairs(below.next)
    store = Store((pairs, below.next), batches[len(covered) :])
    if sort >= 2:
        return Made(store, batches, bool(covered), replayed(batches, len(covered)))
    files = any_segments(chance, batches[len(covered) :], store.floor)
    files |= {TABLE: segments.table(1, store.floor, pairs)} if covered else {}
    return Made(store, batches, bool(covered), files)
