"""Directories, and what the commands say of them and leave there.

The texts were worked out by hand from docs/formats, and the segments are those of segments.py.
"""

import os
from dataclasses import dataclass, field

from segments import BLOCK, FIRST, FIRST_NUMBER, FULL, HEADER, LAST, LOG, MIDDLE
from segments import append, batch, batches_of, chunk, delete_of, log_of, note_of, range_delete_of, segment, set_of, sets, table, written

# What each replay here is given: what is stored is shown, and a log is left where nothing is refused.
SCRIPT = b"get 0 a\ncommit 0 nosync set k v\n"
LAST_WAL = 999_999_999_999
LAST_NUMBER = 2**56 - 1
ONE, SECOND = "wal/000001.log", "wal_secondary/000001-001.log"


@dataclass(frozen=True)
class Said:
    """What a command says, its status, and the files that it adds."""

    text: bytes
    status: int
    adds: dict = field(default_factory=dict)


@dataclass(frozen=True)
class Case:
    name: str
    files: dict
    said: dict


def lines(*texts):
    return "".join(f"{it}\n" for it in texts).encode()


def end(batches, number):
    return f"end batches {batches} next {number}"


def closed(number, batches):
    """The last line of a replay whose batches are all synced, in one segment where there are any."""
    return f"end visible {number} batches {batches} acked {batches} segments {min(batches, 1)} closed"


def done(*texts):
    return Said(lines(*texts), 0)


def refused(text):
    return Said(lines(f"refused {text}"), 6)


def fails(side):
    return Said(lines(f"disk fault {side}"), 5)


def goes_on(answer, number, wal):
    """What a replay says and adds over a store that answers so for the key a, by its next number and WAL."""
    text = lines(f"s0 get a {answer} @{number}", f"s0 commit {number} 1", closed(number + 1, 1))
    return Said(text, 0, {f"wal/{wal:06}.log": log_of([(b"k", b"v")], number, wal)})


def of_all(name, files, said):
    """A case in which the three commands say the same."""
    return Case(name, files, {it: said for it in ("recover", "dump", "replay")})


def strictly(name, files, said, dump):
    """A case in which what has to have no gap is answered in one way."""
    return Case(name, files, {"recover": said, "replay": said, "dump": dump})


def each(name, files, recover, dump, replay):
    return Case(name, files, {"recover": recover, "dump": dump, "replay": replay})


def no_batch(name, files, wal, *shown):
    """A case in which no batch is recovered, by the next WAL and the lines of a dump."""
    return each(name, files, done(end(0, 10)), done(*shown, end(0, 10)), goes_on("none", 10, wal))


def of_a(first, *values):
    """Batches that set the key a, each by one byte: a chunk of 28 bytes."""
    return sets(first, b"a", *(b"%d" % it for it in values))


def shown(first, *values):
    """The lines of a dump on those batches."""
    return [it for number, value in enumerate(values, first) for it in (f"batch {number} 1", f"set a {value}")]


def torn_file_cases():
    """Two segments that overlap, and the first of them damaged."""
    first, second = segment(of_a(10, 1, 2, 3)), segment(of_a(11, 2, 3, 4))
    behind = ["segment 000001-001.log secondary bytes 84 records 3 ends 84 clean", *shown(11, 2, 3, 4), end(4, 14)]
    of_first = "segment 000001.log primary bytes {} records 2 ends 56 {}"
    wrong = bytearray(first)
    wrong[83] ^= 1
    for name, content, at, torn in (
        ("cut", first[:70], 70, "torn"),
        ("cut behind a record", first[:56], 56, "clean"),
        ("zeros in place of a chunk", first[:56] + bytes(28), 84, "clean"),
        ("a bit of a chunk turned", bytes(wrong), 84, "torn"),
    ):
        dump = done(of_first.format(at, torn), *shown(10, 1, 2), *behind)
        yield each(name, {ONE: content, SECOND: second}, done("a = 4", end(4, 14)), dump, goes_on("= 4", 14, 2))


def merging_cases():
    yield each(
        "an overlap",
        {ONE: segment(of_a(10, 1, 2, 3)), SECOND: segment(of_a(11, 2, 3, 4, 5))},
        done("a = 5", end(5, 15)),
        done(
            "segment 000001.log primary bytes 84 records 3 ends 84 clean",
            *shown(10, 1, 2, 3),
            "segment 000001-001.log secondary bytes 112 records 4 ends 112 clean",
            *shown(11, 2, 3, 4, 5),
            end(5, 15),
        ),
        goes_on("= 5", 15, 2),
    )
    yield from torn_file_cases()
    yield each(
        "an index is missing",
        {ONE: segment(of_a(10, 1)), "wal/000001-002.log": segment(of_a(11, 2))},
        done("a = 2", end(2, 12)),
        done(
            "segment 000001.log primary bytes 28 records 1 ends 28 clean",
            *shown(10, 1),
            "segment 000001-002.log primary bytes 28 records 1 ends 28 clean",
            *shown(11, 2),
            end(2, 12),
        ),
        goes_on("= 2", 12, 2),
    )
    both = ["segment 000003.log primary bytes 56 records 2 ends 56 clean", *shown(10, 1, 2)]
    third = segment(of_a(10, 1, 2), 3)
    again = segment(of_a(10, 1) + of_a(12, 3), 7)
    yield strictly(
        "a later WAL repeats a batch",
        {"wal/000003.log": third, "wal/000007.log": again},
        refused("conflict 000007.log 10"),
        done(
            *both,
            "segment 000007.log primary bytes 56 records 2 ends 56 clean",
            *(*shown(10, 1), *shown(12, 3)),
            end(3, 13),
        ),
    )
    yield each(
        "a later WAL goes on",
        {"wal/000003.log": third, "wal/000007.log": segment(of_a(12, 3), 7)},
        done("a = 3", end(3, 13)),
        done(*both, "segment 000007.log primary bytes 28 records 1 ends 28 clean", *shown(12, 3), end(3, 13)),
        goes_on("= 3", 13, 8),
    )


def gap_cases():
    first, later = segment(of_a(10, 1)), segment(of_a(12, 3))
    yield strictly(
        "a gap between segments",
        {ONE: first, SECOND: later},
        refused("gap 000001-001.log expected 11 found 12"),
        done(
            "segment 000001.log primary bytes 28 records 1 ends 28 clean",
            *shown(10, 1),
            "segment 000001-001.log secondary bytes 28 records 1 ends 28 clean",
            *shown(12, 3),
            end(2, 13),
        ),
    )
    yield strictly(
        "a gap within a segment",
        {ONE: segment(of_a(10, 1) + of_a(12, 3))},
        refused("gap 000001.log expected 11 found 12"),
        done("segment 000001.log primary bytes 56 records 2 ends 56 clean", *shown(10, 1), *shown(12, 3), end(2, 13)),
    )
    yield strictly(
        "a gap before the first batch",
        {"wal_secondary/000004.log": segment(of_a(11, 1), 4)},
        refused("gap 000004.log expected 10 found 11"),
        done("segment 000004.log secondary bytes 28 records 1 ends 28 clean", *shown(11, 1), end(1, 12)),
    )
    yield strictly(
        "a gap between WALs",
        {ONE: first, "wal/000003.log": segment(of_a(12, 3), 3)},
        refused("gap 000003.log expected 11 found 12"),
        done(
            "segment 000001.log primary bytes 28 records 1 ends 28 clean",
            *shown(10, 1),
            "segment 000003.log primary bytes 28 records 1 ends 28 clean",
            *shown(12, 3),
            end(2, 13),
        ),
    )
    last = f"batch {LAST_NUMBER - 1} 1"
    yield strictly(
        "the last number",
        {ONE: segment(of_a(LAST_NUMBER - 1, 1))},
        refused(f"gap 000001.log expected 10 found {LAST_NUMBER - 1}"),
        done("segment 000001.log primary bytes 28 records 1 ends 28 clean", last, "set a 1", end(1, LAST_NUMBER)),
    )


def refusal_cases():
    yield of_all(
        "a conflict",
        {ONE: segment(of_a(10, 1, 2)), SECOND: segment(of_a(11, 9))},
        refused("conflict 000001-001.log 11"),
    )
    yield of_all(
        "a conflict by a note alone",
        {ONE: segment(of_a(10, 1)), SECOND: segment([batch(10, set_of(b"a", b"1"), note_of(b"x"))])},
        refused("conflict 000001-001.log 10"),
    )
    yield of_all(
        "a conflict by the end of a range alone",
        {ONE: segment([batch(10, range_delete_of(b"a", b"b"))]), SECOND: segment([batch(10, range_delete_of(b"a", b"c"))])},
        refused("conflict 000001-001.log 10"),
    )
    yield strictly(
        "a number below the first one",
        {ONE: segment(of_a(3, 1))},
        refused("conflict 000001.log 3"),
        done("segment 000001.log primary bytes 28 records 1 ends 28 clean", *shown(3, 1), end(1, 4)),
    )
    yield of_all("a duplicate", {ONE: b"", "wal_secondary/000001.log": b""}, refused("duplicate 000001.log"))
    names = ("000001.log", "000009-002.log", "000009.log")
    yield of_all(
        "the least duplicate, before a bad batch",
        {f"{side}/{it}": segment([b"bad"], int(it[:6])) for side in ("wal", "wal_secondary") for it in names[1:]}
        | {"wal/000001.log": segment([b"bad"])},
        refused("duplicate 000009.log"),
    )


def bad_batch_cases():
    whole = batch(10, set_of(b"a", b"1"))
    lengths = whole[:13], whole[14:]
    ranges = batch(10, range_delete_of(b"a", b"c"))
    for name, record, fault in (
        ("no byte", b"", "short-header"),
        ("a header cut", whole[:11], "short-header"),
        ("an entry cut", whole[:16], "short-entry 12"),
        ("a kind", whole[:12] + b"\x02" + whole[13:], "unknown-kind 12 2"),
        ("a count", batch(10, set_of(b"a", b"1"), count=2), "count 2 1"),
        ("a length of too many bits", lengths[0] + b"\x80\x80\x80\x80\x10" + lengths[1], "bad-varint 13"),
        ("a key too long", lengths[0] + b"\x80\x80\x04" + lengths[1], "too-long 13"),
        ("a range cut before its end", ranges[:15], "short-entry 12"),
        ("a range whose start is too long", ranges[:13] + b"\x80\x80\x04" + ranges[14:], "too-long 13"),
        ("a range whose end is too long", ranges[:15] + b"\x80\x80\x04" + ranges[16:], "too-long 15"),
        ("a number", batch(LAST_NUMBER, set_of(b"a", b"1")), f"seq-range {LAST_NUMBER}"),
    ):
        yield of_all(f"a bad batch: {name}", {ONE: segment([record])}, refused(f"batch 000001.log 0 {fault}"))
    bad = whole[:12] + b"\xff" + whole[13:]
    yield of_all(
        "a bad batch behind another",
        {"wal_secondary/000012-345.log": segment([whole, bad, b""], 12)},
        refused("batch 000012-345.log 28 unknown-kind 12 255"),
    )
    # A WAL is read whole before it is merged, and merged before the next one is read.
    later = {"wal/000002.log": segment([bad], 2)}
    yield of_all(
        "a gap, and a bad batch in the same WAL",
        {ONE: segment(of_a(11, 1)), SECOND: segment([bad])},
        refused("batch 000001-001.log 0 unknown-kind 12 255"),
    )
    yield of_all(
        "a conflict, and a batch cut short in the next WAL",
        {ONE: segment(of_a(10, 1)), SECOND: segment(of_a(10, 9)), "wal/000002.log": segment([whole[:16]], 2)},
        refused("conflict 000001-001.log 10"),
    )
    yield strictly(
        "a gap, and a bad batch in the next WAL",
        {ONE: segment(of_a(11, 1)), **later},
        refused("gap 000001.log expected 10 found 11"),
        refused("batch 000002.log 0 unknown-kind 12 255"),
    )


# The segments of WAL 1, 2 and 3, a letter each and in the order of their indexes, and the first reason against them:
# in a strict recovery, and in a lenient one where that is another. No number comes twice but where a letter says so.
#   .  a batch of the next number
#   b  the same, and behind it a record that is no batch
#   g  a batch that leaves out a number
#   c  another batch of the number before
#   d  as the dot, on both sides
NO_BATCH = "28 unknown-kind 12 255"
FIRST_REASONS = (
    (".b .g .c", f"batch 000001-001.log {NO_BATCH}", None),
    (".b .c .g", f"batch 000001-001.log {NO_BATCH}", None),
    (".g .b .c", "gap 000001-001.log expected 11 found 12", f"batch 000002-001.log {NO_BATCH}"),
    (".g .c .b", "gap 000001-001.log expected 11 found 12", "conflict 000002-001.log 13"),
    (".c .b .g", "conflict 000001-001.log 10", None),
    (".c .g .b", "conflict 000001-001.log 10", None),
    # Of one WAL every segment is read before any is merged.
    (".bg .c", f"batch 000001-001.log {NO_BATCH}", None),
    (".gb .c", f"batch 000001-002.log {NO_BATCH}", None),
    (".bc .g", f"batch 000001-001.log {NO_BATCH}", None),
    (".cb .g", f"batch 000001-002.log {NO_BATCH}", None),
    (".gc .b", "gap 000001-001.log expected 11 found 12", "conflict 000001-002.log 12"),
    (".cg .b", "conflict 000001-001.log 10", None),
    (".g .bc", "gap 000001-001.log expected 11 found 12", f"batch 000002-001.log {NO_BATCH}"),
    (".g .cb", "gap 000001-001.log expected 11 found 12", f"batch 000002-002.log {NO_BATCH}"),
    (".c .bg", "conflict 000001-001.log 10", None),
    (".c .gb", "conflict 000001-001.log 10", None),
    # A duplicate comes before all that is read, and of two of them the least.
    ("d.c .g .b", "duplicate 000001.log", None),
    (".b .dg .c", "duplicate 000002-001.log", None),
    (".g .c .bd", "duplicate 000003-002.log", None),
    (".c .gd .bd", "duplicate 000002-002.log", None),
)


def by_letter(letter, number):
    """The records of a segment, and the number that comes next."""
    if letter == "c":
        return of_a(number - 1, 2), number
    if letter == "g":
        return of_a(number + 1, 1), number + 2
    no_batch = batch(number)[:12] + b"\xff"
    return of_a(number, 1) + [no_batch] * (letter == "b"), number + 1


def by_letters(wals):
    """The files of segments that are told by letters."""
    files, number = {}, FIRST_NUMBER
    for wal, letters in enumerate(wals.split(), 1):
        for index, letter in enumerate(letters):
            records, number = by_letter(letter, number)
            sides = ["wal", "wal_secondary"] if letter == "d" else ["wal_secondary" if index % 2 else "wal"]
            name = f"{wal:06}{f'-{index:03}' if index else ''}.log"
            files |= {f"{side}/{name}": segment(records, wal) for side in sides}
    return files


def first_reason_cases():
    for wals, strict, lenient in FIRST_REASONS:
        yield strictly(f"the first reason: {wals}", by_letters(wals), refused(strict), refused(lenient or strict))


def name_cases():
    for side in ("wal", "wal_secondary"):
        names = ("notes", "1.log", "0000001.log", "000001-1.log", "000001-000.log", "000001.LOG", "1000000000000.log")
        odd = [os.fsdecode(it) for it in (b"\xff.log", b"000001.log\xff", b"00000\xb9.log")]
        yield no_batch(f"other names in {side}", {f"{side}/{it}": segment(of_a(10, 1)) for it in (*names, *odd)}, 1)
        yield no_batch(
            f"an empty segment in {side}",
            {f"{side}/1234567-002.log": b""},
            1234568,
            f"segment 1234567-002.log {'primary' if side == 'wal' else 'secondary'} bytes 0 records 0 ends 0 clean",
        )
        fault = fails("primary" if side == "wal" else "secondary")
        yield of_all(f"{side} is a file", {side: b""}, fault)
    yield of_all("both directories are files", {"wal": b"", "wal_secondary": b""}, fails("primary"))
    yield each(
        "names are ordered by numbers",
        {"wal/1000000.log": segment(of_a(11, 2), 1000000), "wal/999999.log": segment(of_a(10, 1), 999999)},
        done("a = 2", end(2, 12)),
        done(
            "segment 999999.log primary bytes 28 records 1 ends 28 clean",
            *shown(10, 1),
            "segment 1000000.log primary bytes 28 records 1 ends 28 clean",
            *shown(11, 2),
            end(2, 12),
        ),
        goes_on("= 2", 12, 1000001),
    )
    yield each(
        "the low bits of a WAL's number",
        {f"wal/{2**32 + 1}.log": segment(of_a(10, 1), 1)},
        done("a = 1", end(1, 11)),
        done(f"segment {2**32 + 1}.log primary bytes 28 records 1 ends 28 clean", *shown(10, 1), end(1, 11)),
        goes_on("= 1", 11, 2**32 + 2),
    )
    yield each(
        "the first WAL",
        {"wal_secondary/000000.log": segment(of_a(10, 1), 0)},
        done("a = 1", end(1, 11)),
        done("segment 000000.log secondary bytes 28 records 1 ends 28 clean", *shown(10, 1), end(1, 11)),
        goes_on("= 1", 11, 1),
    )
    full = f"segment {LAST_WAL}.log primary bytes 0 records 0 ends 0 clean"
    taken = {f"wal/{LAST_WAL}.log": b""}
    yield each("the last WAL is taken", taken, done(end(0, 10)), done(full, end(0, 10)), Said(b"limit wal\n", 8))
    before = f"segment {LAST_WAL - 1}-999.log primary bytes 0 records 0 ends 0 clean"
    yield no_batch("the last WAL is free", {f"wal/{LAST_WAL - 1}-999.log": b""}, LAST_WAL, before)


# The example of docs/formats/table.md: the table 1 with the next number 13 and the key a of the value 1.
TABLE_ONE = bytes.fromhex(
    "4c 86 09 94 10 00 09 01 00 00 00 00 00 00 00 00 00 00 00 0d 00 00 00 00 00 00 00 01 00 00 00 00 00 00 00"
    "07 bf cb de 11 00 09 01 00 00 00 00 00 00 00 00 00 00 00 0c 00 00 00 00 00 00 00 01 00 00 00 01 01 61 01 31"
)


def table_cases():
    pairs = [(b"a", b"1"), (b"b", b"2")]
    second, third = "wal/000002.tab", "wal/000003.tab"
    above = "segment 000003.log primary bytes 28 records 1 ends 28 clean"
    yield each(
        "a table alone",
        {"wal/000001.tab": TABLE_ONE},
        done("a = 1", end(1, 13)),
        done("table 000001.tab keys 1 next 13", end(1, 13)),
        goes_on("= 1", 13, 2),
    )
    # The segments up to the table are neither read nor compared by their names.
    covered = {f"{side}/{it}": b"bad" for side in ("wal", "wal_secondary") for it in ("000001.log", "000002-001.log")}
    yield each(
        "a table with segments above it and below",
        {second: table(2, 14, pairs), "wal/000003.log": segment(of_a(14, 3), 3), **covered},
        done("a = 3", "b = 2", end(3, 15)),
        done("table 000002.tab keys 2 next 14", above, *shown(14, 3), end(3, 15)),
        goes_on("= 3", 15, 4),
    )
    yield each(
        "the greatest of three tables is cut short",
        {"wal/000001.tab": TABLE_ONE, second: table(2, 14, pairs), third: table(3, 15, pairs)[:-1]},
        done("a = 1", "b = 2", end(2, 14)),
        done("table 000002.tab keys 2 next 14", end(2, 14)),
        goes_on("= 1", 14, 4),
    )
    first = "segment 000001.log primary bytes 28 records 1 ends 28 clean"
    turned = bytearray(table(3, 14, pairs))
    turned[-1] ^= 1
    late = [(b"b", b"2"), (b"a", b"1")]
    for name, text in (
        ("empty", b""),
        ("with a bit turned", bytes(turned)),
        ("of another number", table(2, 14, pairs)),
        ("with a record too many", written([(14).to_bytes(8, "little") + (1).to_bytes(8, "little"), *batches_of(pairs, 12)], 3)),
        ("with a record too few", written([(14).to_bytes(8, "little") + (3).to_bytes(8, "little"), *batches_of(pairs, 11)], 3)),
        ("with keys out of order", written([(14).to_bytes(8, "little") + (2).to_bytes(8, "little"), *batches_of(late, 12)], 3)),
        ("with another next number", written([(15).to_bytes(8, "little") + (2).to_bytes(8, "little"), *batches_of(pairs, 12)], 3)),
        ("with too few numbers", table(3, 11, pairs)),
    ):
        yield each(
            f"a table that is none: {name}",
            {third: text, ONE: segment(of_a(10, 1))},
            done("a = 1", end(1, 11)),
            done(first, *shown(10, 1), end(1, 11)),
            goes_on("= 1", 11, 4),
        )
    yield each(
        "a table of no key",
        {third: table(3, 13, []), ONE: segment(of_a(10, 1))},
        done(end(0, 13)),
        done("table 000003.tab keys 0 next 13", end(0, 13)),
        goes_on("none", 13, 4),
    )
    yield strictly(
        "a gap above a table",
        {second: table(2, 14, pairs), "wal/000003.log": segment(of_a(15, 9), 3)},
        refused("gap 000003.log expected 14 found 15"),
        done("table 000002.tab keys 2 next 14", above, *shown(15, 9), end(3, 16)),
    )
    yield strictly(
        "a batch of a table above it once more",
        {second: table(2, 14, pairs), "wal/000003.log": segment(sets(13, b"b", b"2"), 3)},
        refused("conflict 000003.log 13"),
        done("table 000002.tab keys 2 next 14", above, "batch 13 1", "set b 2", end(2, 14)),
    )
    yield no_batch("a table on the other side", {"wal_secondary/000001.tab": TABLE_ONE}, 1)
    names = ("1.tab", "0000001.tab", "000001.TAB", "000001-001.tab", "1000000000000.tab")
    yield no_batch("other names of tables", {f"wal/{it}": TABLE_ONE for it in names}, 1)
    yield each(
        "the last WAL is taken by a table",
        {f"wal/{LAST_WAL}.tab": table(LAST_WAL, 13, pairs)},
        done("a = 1", "b = 2", end(2, 13)),
        done(f"table {LAST_WAL}.tab keys 2 next 13", end(2, 13)),
        Said(b"limit wal\n", 8),
    )


def chunk_cases():
    one = segment(of_a(10, 1))
    kept = "segment 000001.log primary bytes {} records 1 ends 28 {}"
    open_record = chunk(FIRST, of_a(11, 2)[0][:9])
    for name, tail, torn in (
        ("a chunk of another log", segment(of_a(11, 2), 7), "torn"),
        ("a record that has not ended", open_record, "torn"),
        ("a record that has not begun", chunk(LAST, of_a(11, 2)[0]), "torn"),
        ("a record begun twice", open_record + segment(of_a(11, 2)), "torn"),
        ("a chunk of the form without a log number", b"\0\0\0\0\x01\0\x01x", "torn"),
        ("zeros", bytes(2 * BLOCK), "clean"),
    ):
        dump = done(kept.format(28 + len(tail), torn), *shown(10, 1), end(1, 11))
        yield each(name, {ONE: one + tail}, done("a = 1", end(1, 11)), dump, goes_on("= 1", 11, 2))
    yield no_batch(
        "a file of another log",
        {"wal/000002.log": one},
        3,
        "segment 000002.log primary bytes 28 records 0 ends 0 torn",
    )
    # The fragments need not fill their blocks, and may have no byte.
    record = of_a(10, 1)[0]
    parts = [chunk(FIRST, record[:5]), chunk(MIDDLE, b""), chunk(MIDDLE, record[5:16]), chunk(LAST, record[16:])]
    behind = chunk(FIRST, b"") + chunk(LAST, of_a(11, 2)[0])
    yield each(
        "fragments that do not fill their blocks",
        {ONE: b"".join(parts) + behind},
        done("a = 2", end(2, 12)),
        done("segment 000001.log primary bytes 100 records 2 ends 100 clean", *shown(10, 1, 2), end(2, 12)),
        goes_on("= 2", 12, 2),
    )


def block_cases():
    """A log of several blocks, and one whose second record begins in the next block, behind bytes of any kind."""
    great, less = b"v" * 70_000, b"w" * (BLOCK - HEADER - 19)
    whole = segment(batches_of([(b"k", great), (b"a", b"1"), (b"b", great), (b"k", less)]))
    yield each(
        "a log of several blocks",
        {ONE: whole},
        done("a = 1", f"b = {great.decode()}", f"k = {less.decode()}", end(4, 14)),
        done(
            f"segment 000001.log primary bytes {len(whole)} records 4 ends {len(whole)} clean",
            *("batch 10 1", f"set k {great.decode()}"),
            *("batch 11 1", "set a 1"),
            *("batch 12 1", f"set b {great.decode()}"),
            *("batch 13 1", f"set k {less.decode()}"),
            end(4, 14),
        ),
        goes_on("= 1", 14, 2),
    )
    # A Set of this key and value has 18 bytes before the value, so that one byte is left in the block.
    filler = b"v" * (BLOCK - HEADER - 18 - 1)
    first = chunk(FULL, batch(10, set_of(b"b", filler)))
    yield each(
        "a byte at the end of a block",
        {ONE: first + b"x" + segment(of_a(11, 2))},
        done("a = 2", f"b = {filler.decode()}", end(2, 12)),
        done(
            f"segment 000001.log primary bytes {BLOCK + 28} records 2 ends {BLOCK + 28} clean",
            *("batch 10 1", f"set b {filler.decode()}"),
            *shown(11, 2),
            end(2, 12),
        ),
        goes_on("= 2", 12, 2),
    )


def corrupt(number, wal=1):
    """A segment of two batches from a number on. The first was synced before the second was written, and has changed since.

    The second goes on in the second block, where its last chunk tells what was synced.
    """
    whole = bytearray(log_of([(b"a", b"1"), (b"b", b"v" * 40_000)], number, wal, [1]))
    whole[20] ^= 1
    return bytes(whole)


def corrupt_cases():
    """Bytes that were synced and have changed, and in which order they are told."""
    both = bytearray(segment(of_a(10, 1)))
    append(both, of_a(11, 2)[0], offset=28)
    yield each(
        "a chunk with a sync offset behind one without",
        {ONE: bytes(both)},
        done("a = 2", end(2, 12)),
        done("segment 000001.log primary bytes 64 records 2 ends 64 clean", *shown(10, 1, 2), end(2, 12)),
        goes_on("= 2", 12, 2),
    )
    unread = "segment 000001.log primary bytes 40092 records 0 ends 0 torn"
    told = refused("corrupt 000001.log 0 32768")
    yield strictly("synced bytes have changed", {ONE: corrupt(10)}, told, done(unread, end(0, 10)))
    second = "segment 000001-001.log secondary bytes 28 records 1 ends 28 clean"
    yield strictly(
        "synced bytes have changed, and another segment has the batch",
        {ONE: corrupt(10), SECOND: segment(of_a(10, 1))},
        told,
        done(unread, second, *shown(10, 1), end(1, 11)),
    )
    yield strictly(
        "synced bytes of a later segment have changed, and there is a gap",
        {ONE: segment(of_a(12, 1)), SECOND: corrupt(10)},
        refused("corrupt 000001-001.log 0 32768"),
        done(
            "segment 000001.log primary bytes 28 records 1 ends 28 clean",
            *shown(12, 1),
            "segment 000001-001.log secondary bytes 40092 records 0 ends 0 torn",
            end(1, 13),
        ),
    )
    bad = batch(10)[:12] + b"\xff"
    no_batch = "0 unknown-kind 12 255"
    yield strictly(
        "synced bytes have changed, and a bad batch in the next segment",
        {ONE: corrupt(10), SECOND: segment([bad])},
        told,
        refused(f"batch 000001-001.log {no_batch}"),
    )
    yield of_all(
        "a bad batch, and synced bytes of the next segment have changed",
        {ONE: segment([bad]), SECOND: corrupt(10)},
        refused(f"batch 000001.log {no_batch}"),
    )
    # The bad batch stands before the changed bytes, in one segment with them.
    one = bytearray(written([bad, *batches_of([(b"a", b"1"), (b"b", b"v" * 40_000)])], LOG, [2]))
    one[len(written([bad])) + 20] ^= 1
    yield of_all("a bad batch before synced bytes that have changed", {ONE: bytes(one)}, refused(f"batch 000001.log {no_batch}"))
    yield strictly(
        "a gap, and synced bytes of the next WAL have changed",
        {ONE: segment(of_a(11, 1)), "wal/000002.log": corrupt(12, 2)},
        refused("gap 000001.log expected 10 found 11"),
        done(
            "segment 000001.log primary bytes 28 records 1 ends 28 clean",
            *shown(11, 1),
            "segment 000002.log primary bytes 40092 records 0 ends 0 torn",
            end(1, 12),
        ),
    )


def entry_cases():
    """Batches of several entries, and bytes that are not printed as they are."""
    entries = (
        set_of(b"a b", b"x y"),
        set_of(b"\\", b"a\\b"),
        set_of(b"a", b""),
        set_of(b"", b"\0\xff"),
        set_of(b"\x7f", b"gone"),
        set_of(b"~", b"!"),
        delete_of(b"\x7f"),
        note_of(b""),
        note_of(b"a note"),
    )
    content = segment([batch(10, *entries), batch(17, delete_of(b"never"))])
    yield each(
        "entries of all kinds",
        {ONE: content},
        done("\\e = \\x00\\xff", "\\x5c = a\\x5cb", "a = \\e", "a\\x20b = x\\x20y", "~ = !", end(2, 18)),
        done(
            f"segment 000001.log primary bytes {len(content)} records 2 ends {len(content)} clean",
            *("batch 10 7", "set a\\x20b x\\x20y", "set \\x5c a\\x5cb", "set a \\e", "set \\e \\x00\\xff"),
            *("set \\x7f gone", "set ~ !", "del \\x7f", "note \\e", "note a\\x20note"),
            *("batch 17 1", "del never"),
            end(2, 18),
        ),
        goes_on("= \\e", 18, 2),
    )
    ranges = segment([
        batch(10, *(set_of(it, it) for it in (b"", b"a", b"b", b"b\0", b"c"))),
        batch(15, range_delete_of(b"a", b"c"), set_of(b"b", b"2"), range_delete_of(b"c", b"a"), range_delete_of(b"", b"")),
    ])
    yield each(
        "ranges that are deleted",
        {ONE: ranges},
        done("\\e = \\e", "b = 2", "c = c", end(2, 19)),
        done(
            f"segment 000001.log primary bytes {len(ranges)} records 2 ends {len(ranges)} clean",
            *("batch 10 5", "set \\e \\e", "set a a", "set b b", "set b\\x00 b\\x00", "set c c"),
            *("batch 15 4", "rdel a c", "set b 2", "rdel c a", "rdel \\e \\e"),
            end(2, 19),
        ),
        goes_on("none", 19, 2),
    )
    note = segment([batch(10, note_of(b"x"))])
    yield no_batch(
        "a note alone",
        {ONE: note},
        2,
        f"segment 000001.log primary bytes {len(note)} records 1 ends {len(note)} clean",
        *("batch 10 0", "note x"),
    )
    empty = segment([batch(0), *of_a(10, 1), batch(LAST_NUMBER, note_of(b"x")), *of_a(11, 2)])
    yield each(
        "batches that take no number, of any number",
        {ONE: empty},
        done("a = 2", end(2, 12)),
        done(
            f"segment 000001.log primary bytes {len(empty)} records 4 ends {len(empty)} clean",
            "batch 0 0",
            *shown(10, 1),
            *(f"batch {LAST_NUMBER} 0", "note x"),
            *shown(11, 2),
            end(2, 12),
        ),
        goes_on("= 2", 12, 2),
    )
    long = batch(10)[:8] + b"\x01\0\0\0\x01\x81\0a\x81\x80\0" + b"1"
    yield each(
        "a length that is not the shortest",
        {ONE: segment([long]), SECOND: segment(of_a(10, 1, 2))},
        done("a = 2", end(2, 12)),
        done(
            f"segment 000001.log primary bytes {11 + len(long)} records 1 ends {11 + len(long)} clean",
            *shown(10, 1),
            "segment 000001-001.log secondary bytes 56 records 2 ends 56 clean",
            *shown(10, 1, 2),
            end(2, 12),
        ),
        goes_on("= 2", 12, 2),
    )


CASES = [
    no_batch("no directories", {}, 1),
    *merging_cases(),
    *gap_cases(),
    *refusal_cases(),
    *bad_batch_cases(),
    *first_reason_cases(),
    *name_cases(),
    *table_cases(),
    *chunk_cases(),
    *block_cases(),
    *corrupt_cases(),
    *entry_cases(),
]
