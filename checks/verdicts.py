"""Scripts with texts that the judge is to accept and texts that it is to refuse.

All were worked out by hand from docs/formats. What a text that is refused does wrong is said by its name.
"""

from dataclasses import dataclass

from directories import closed, lines
from judge import NUMBER_MAX, Batch


@dataclass(frozen=True)
class Trial:
    """A script, and its texts by their names: lines, or bytes. All are judged over one base, with one status."""

    script: bytes
    legal: dict
    illegal: dict
    base: tuple = ()
    status: int = 0
    faults: bool = False


def ended(word, visible, batches, acked, segments):
    return f"end visible {visible} batches {batches} acked {acked} segments {segments} {word}"


END_11, END_12, END_13 = closed(11, 1), closed(12, 2), closed(13, 2)
TRANSFERRED = (
    Batch(10, (("set", "acct/1", "90"), ("set", "acct/2", "110"), ("note", "t7"))),
    Batch(12, (("del", "acct/1"),)),
)
# One number is left after this base.
LAST = NUMBER_MAX - 1
NEARLY_ALL = (Batch(LAST - 1, (("set", "a", "0"),)),)

EMPTY = Trial(
    b"",
    legal={"an empty script": (closed(10, 0),)},
    illegal={
        "no line": (),
        "no line feed at the end": lines(closed(10, 0))[:-1],
        "bytes that are no text": b"\xff\n" + lines(closed(10, 0)),
        "an empty line at the end": (closed(10, 0), ""),
        "another number at the end": (closed(11, 0),),
        "a batch that no reply tells": (END_11,),
        "a segment without a batch": (ended("closed", 10, 0, 0, 1),),
        "halted without a halt": (ended("halted", 10, 0, 0, 0),),
        "a word that is none": (ended("open", 10, 0, 0, 0),),
    },
)

# Two sessions commit beside each other, and read once they have met.
FIRST, SECOND = ("s0 commit 10 1", "s1 commit 11 1"), ("s0 commit 11 1", "s1 commit 10 1")
READ_B, READ_A = "s0 get b = 2 @12", "s1 get a = 1 @12"
EITHER = Trial(
    lines("commit 0 nosync set a 1", "commit 1 nosync set b 2", "round", "get 0 b", "get 1 a"),
    legal={
        "the first one comes first": (*FIRST, READ_B, READ_A, END_12),
        "the second one comes first": (*SECOND, READ_B, READ_A, END_12),
    },
    illegal={
        "a reply is missing": (*FIRST, READ_B, END_12),
        "a reply stands twice": (*FIRST, READ_B, READ_B, READ_A, END_12),
        "no end": (*FIRST, READ_B, READ_A),
        "the sessions stand in another order": (*FIRST[::-1], READ_B, READ_A, END_12),
        "the rounds stand in another order": (READ_B, READ_A, *FIRST, END_12),
        "another session is named": (FIRST[0], "s2 commit 11 1", READ_B, READ_A, END_12),
        "another key is named": (*FIRST, "s0 get a = 1 @12", READ_A, END_12),
        "a number has a zero in front": ("s0 commit 010 1", FIRST[1], READ_B, READ_A, END_12),
        "two spaces": ("s0 commit 10  1", FIRST[1], READ_B, READ_A, END_12),
        "a get is answered as a commit": (*FIRST, "s0 commit 12 1", READ_A, closed(13, 3)),
        "a commit is answered as a get": ("s0 get a = 1 @11", "s1 commit 10 1", READ_B, READ_A, END_11),
        "both have one number": (FIRST[0], "s1 commit 10 1", READ_B, READ_A, END_12),
        "a number is left out": (FIRST[0], "s1 commit 12 1", "s0 get b = 2 @13", "s1 get a = 1 @13", END_13),
        "the first number is 11": ("s0 commit 11 1", "s1 commit 12 1", "s0 get b = 2 @13", "s1 get a = 1 @13", END_13),
        "another count": ("s0 commit 10 2", FIRST[1], READ_B, READ_A, END_12),
        "another count and end": ("s0 commit 10 2", "s1 commit 12 1", "s0 get b = 2 @13", "s1 get a = 1 @13", END_13),
        "the round before is not seen": (*FIRST, "s0 get b none @11", READ_A, END_12),
        "nothing is seen": (*FIRST, "s0 get b none @10", "s1 get a none @10", END_12),
        "synced without a sync": ("s0 commit 10 1 synced", FIRST[1], READ_B, READ_A, END_12),
        "a limit that is far": (FIRST[0], "s1 commit limit", "s0 get b none @11", "s1 get a = 1 @11", END_11),
        "dead where the journal lives": (FIRST[0], "s1 commit dead", "s0 get b none @11", "s1 get a = 1 @11", END_11),
        "a batch more at the end": (*FIRST, READ_B, READ_A, ended("closed", 12, 3, 3, 1)),
        "a batch less at the end": (*FIRST, READ_B, READ_A, ended("closed", 12, 1, 1, 1)),
        "an end before the last batch": (*FIRST, READ_B, READ_A, ended("closed", 11, 2, 2, 1)),
        "more acked than there are": (*FIRST, READ_B, READ_A, ended("closed", 12, 2, 3, 1)),
        "closed and not all acked": (*FIRST, READ_B, READ_A, ended("closed", 12, 2, 1, 1)),
        "no segment": (*FIRST, READ_B, READ_A, ended("closed", 12, 2, 2, 0)),
        "two segments without a stall": (*FIRST, READ_B, READ_A, ended("closed", 12, 2, 2, 2)),
    },
)
AT_LIMIT = Trial(EITHER.script, {}, {"no limit, at its status": (*FIRST, READ_B, READ_A, END_12)}, status=8)

# One session commits, and another one reads meanwhile.
MADE = ("s0 commit 10 1", "s0 commit 11 2")
UNSEEN = ("s1 get a none @10", "s1 get b none @10")
BESIDE = Trial(
    lines("commit 0 nosync set a 1", "commit 0 nosync set a 2 ; set b 2", "get 1 a", "get 1 b"),
    legal={
        "reads before both batches": (*MADE, *UNSEEN, END_13),
        "reads between them": (*MADE, "s1 get a = 1 @11", "s1 get b none @11", END_13),
        "reads after both": (*MADE, "s1 get a = 2 @13", "s1 get b = 2 @13", END_13),
        "a read before and one after": (*MADE, "s1 get a none @10", "s1 get b = 2 @13", END_13),
    },
    illegal={
        "the number falls": (*MADE, "s1 get a = 2 @13", "s1 get b none @11", END_13),
        "a number below all": (*MADE, "s1 get a none @9", "s1 get b none @10", END_13),
        "a number within a batch": (*MADE, "s1 get a = 1 @11", "s1 get b = 2 @12", END_13),
        "a number that no batch reaches": (*MADE, "s1 get a = 2 @13", "s1 get b = 2 @14", END_13),
        "half of a batch is seen": (*MADE, "s1 get a = 1 @11", "s1 get b = 2 @11", END_13),
        "the other half is missing": (*MADE, "s1 get a = 2 @13", "s1 get b none @13", END_13),
        "an older value": (*MADE, "s1 get a = 1 @13", "s1 get b = 2 @13", END_13),
        "a newer value": (*MADE, "s1 get a = 2 @11", "s1 get b = 2 @13", END_13),
        "a value that nobody set": (*MADE, "s1 get a = 3 @13", "s1 get b = 2 @13", END_13),
        "a value of another key": (*MADE, "s1 get a = 1 @11", "s1 get b = 1 @11", END_13),
        "a session's batches change places": ("s0 commit 12 1", "s0 commit 10 2", *UNSEEN, END_13),
        "a batch begins within another": ("s0 commit 10 1", "s0 commit 10 2", *UNSEEN, END_12),
    },
)

# Each session commits, and then reads what the other one sets.
CROSSED = Trial(
    lines("commit 0 nosync set a 1", "get 0 b", "commit 1 nosync set b 2", "get 1 a"),
    legal={
        "each sees the other": ("s0 commit 10 1", READ_B, "s1 commit 11 1", READ_A, END_12),
        "the first does not see the second": ("s0 commit 10 1", "s0 get b none @11", "s1 commit 11 1", READ_A, END_12),
        "the second does not see the first": ("s0 commit 11 1", READ_B, "s1 commit 10 1", "s1 get a none @11", END_12),
    },
    illegal={
        "neither sees the other": ("s0 commit 10 1", "s0 get b none @11", "s1 commit 11 1", "s1 get a none @11", END_12),
        "its own batch and none before it": ("s0 commit 10 1", READ_B, "s1 commit 11 1", "s1 get a none @12", END_12),
        "its own batch is not seen": ("s0 commit 10 1", "s0 get b none @10", "s1 commit 11 1", READ_A, END_12),
    },
)

# A batch in each of two rounds, and a read in the first and in the last.
LATER = Trial(
    lines("commit 0 nosync set a 1", "get 1 a", "round", "commit 1 nosync set a 2", "round", "get 0 a"),
    legal={"three rounds": ("s0 commit 10 1", "s1 get a = 1 @11", "s1 commit 11 1", "s0 get a = 2 @12", END_12)},
    illegal={
        "a batch of the next round is seen": (
            *("s0 commit 10 1", "s1 get a = 2 @12", "s1 commit 11 1", "s0 get a = 2 @12"),
            END_12,
        ),
        "the rounds' batches change places": (
            *("s0 commit 11 1", "s1 get a none @10", "s1 commit 10 1", "s0 get a = 1 @12"),
            END_12,
        ),
        "the round before is not seen": ("s0 commit 10 1", "s1 get a = 1 @11", "s1 commit 11 1", "s0 get a = 1 @11", END_12),
    },
)

OWN = ("s0 get a none @10", "s0 commit 10 1", "s0 get a = 1 @11", "s0 commit 11 1", "s0 get a none @12")
ALONE = Trial(
    lines("get 0 a", "commit 0 nosync set a 1", "get 0 a", "commit 0 nosync del a", "get 0 a"),
    legal={"a session alone": (*OWN, END_12)},
    illegal={
        "its own batch is not seen": (*OWN[:2], "s0 get a none @10", *OWN[3:], END_12),
        "its own batch is seen too early": ("s0 get a = 1 @11", *OWN[1:], END_12),
        "a deleted value is seen": (*OWN[:4], "s0 get a = 1 @12", END_12),
    },
)

TRANSFER = Trial(
    lines(
        *("# transfer", "commit 0 sync set acct/1 90 ; set acct/2 110 ; note t7", "get 0 acct/1"),
        *("commit 0 nosync del acct/1", "get 0 acct/1", "get 0 acct/3"),
    ),
    legal={
        "a transfer": (
            *("s0 commit 10 2 synced", "s0 get acct/1 = 90 @12", "s0 commit 12 1", "s0 get acct/1 none @13"),
            *("s0 get acct/3 none @13", END_13),
        ),
    },
    illegal={
        "a note is counted": (
            *("s0 commit 10 3 synced", "s0 get acct/1 = 90 @13", "s0 commit 13 1", "s0 get acct/1 none @14"),
            *("s0 get acct/3 none @14", closed(14, 2)),
        ),
    },
)
OVER_BASE = Trial(
    lines("commit 0 sync set b 1", "get 1 acct/2"),
    legal={
        "a run behind another": ("s0 commit 13 1 synced", "s1 get acct/2 = 110 @13", closed(14, 1)),
        "a later read": ("s0 commit 13 1 synced", "s1 get acct/2 = 110 @14", closed(14, 1)),
    },
    illegal={
        "the numbers begin anew": ("s0 commit 10 1 synced", "s1 get acct/2 none @10", END_11),
        "the base is not seen": ("s0 commit 13 1 synced", "s1 get acct/2 none @10", closed(14, 1)),
        "a part of the base is seen": ("s0 commit 13 1 synced", "s1 get acct/2 = 110 @12", closed(14, 1)),
        "the base is counted": ("s0 commit 13 1 synced", "s1 get acct/2 = 110 @13", ended("closed", 14, 3, 3, 1)),
    },
    base=TRANSFERRED,
)
BACKSLASH = Trial(
    lines("commit 0 nosync set a\\b \\", "get 0 a\\b", "get 0 none"),
    legal={"backslashes": ("s0 commit 10 1", "s0 get a\\x5cb = \\x5c @11", "s0 get none none @11", END_11)},
    illegal={
        "a backslash stands for itself": ("s0 commit 10 1", "s0 get a\\b = \\x5c @11", "s0 get none none @11", END_11),
        "a value is printed as it is": ("s0 commit 10 1", "s0 get a\\x5cb = \\ @11", "s0 get none none @11", END_11),
        "a value instead of none": ("s0 commit 10 1", "s0 get a\\x5cb = \\x5c @11", "s0 get none = none @11", END_11),
    },
)

SYNCED = Trial(
    lines("commit 0 sync set a 1", "commit 1 nosync set b 2"),
    legal={"a sync": ("s0 commit 10 1 synced", "s1 commit 11 1", END_12)},
    illegal={
        "a sync is not told": (*FIRST, END_12),
        "unsynced where the journal lives": ("s0 commit 10 1 unsynced", "s1 commit 11 1", END_12),
        "a commit is not answered": ("s0 commit 10 1 synced", "s1 get b = 2 @12", END_12),
    },
)
FAILING = Trial(
    SYNCED.script,
    legal={"a segment that fails": ("s0 commit 10 1 synced", "s1 commit 11 1", ended("closed", 12, 2, 2, 2))},
    illegal={"eleven segments": ("s0 commit 10 1 synced", "s1 commit 11 1", ended("closed", 12, 2, 2, 11))},
    faults=True,
)
STALLED = Trial(
    lines("stall p 60", "stall s 60", "commit 0 sync set a 1"),
    legal={
        "ten segments": ("s0 commit 10 1 synced", ended("closed", 11, 1, 1, 10)),
        "one segment": ("s0 commit 10 1 synced", END_11),
    },
    illegal={"eleven segments": ("s0 commit 10 1 synced", ended("closed", 11, 1, 1, 11))},
)
WITHOUT_FAULT = Trial(
    STALLED.script,
    legal={},
    illegal={"a death without a fault": ("s0 commit 10 1 unsynced", ended("dead", 11, 1, 0, 10))},
    status=5,
)
SENT = ("s0 commit 10 1", "s0 commit 11 1 synced", "s0 commit 12 1")
HALTED = Trial(
    lines("commit 0 nosync set a 1", "commit 0 sync set b 2", "commit 0 nosync set c 3", "halt"),
    legal={
        "a halt": (*SENT, ended("halted", 13, 3, 2, 1)),
        "a halt with all synced": (*SENT, ended("halted", 13, 3, 3, 1)),
    },
    illegal={
        "closed in spite of the halt": (*SENT, closed(13, 3)),
        "synced and not acked": (*SENT, ended("halted", 13, 3, 1, 1)),
        "acked without a segment": (*SENT, ended("halted", 13, 3, 2, 0)),
        "more acked than there are": (*SENT, ended("halted", 13, 3, 4, 1)),
    },
)
HALTED_AT_ONCE = Trial(
    lines("stall p 9", "commit 0 nosync set a 1", "halt"),
    legal={
        "no segment yet": ("s0 commit 10 1", ended("halted", 11, 1, 0, 0)),
        "a segment without a sync": ("s0 commit 10 1", ended("halted", 11, 1, 0, 1)),
    },
    illegal={"no batch": ("s0 commit dead", ended("halted", 10, 0, 0, 0))},
)

SYNCED_AND_HALTED = Trial(
    lines("commit 0 sync set a 1", "halt"),
    legal={"a sync and a halt": ("s0 commit 10 1 synced", ended("halted", 11, 1, 1, 1))},
    illegal={"unsynced where it halts": ("s0 commit 10 1 unsynced", ended("halted", 11, 1, 0, 1))},
)

# The journal dies before the first batch is synced.
UNSYNCED = ("s0 commit 10 1 unsynced", "s0 commit dead", "s0 get a = 1 @11")
BEHIND = ("s0 commit 11 1 unsynced", "s0 commit dead", "s0 get a = 1 @12", "s1 commit 10 1")
DEAD = ended("dead", 11, 1, 0, 10)
DYING = Trial(
    lines(
        *("commit 0 sync set a 1", "commit 0 nosync set b 2", "get 0 a", "commit 1 nosync set c 3"),
        *("round", "commit 1 nosync set d 4"),
    ),
    legal={
        "a death": (*UNSYNCED, "s1 commit dead", "s1 commit dead", DEAD),
        "a batch beside a death": (*BEHIND, "s1 commit dead", ended("dead", 12, 2, 1, 10)),
    },
    illegal={
        "a batch after a death": (
            *(UNSYNCED[0], "s0 commit 11 1", "s0 get a = 1 @12", "s1 commit dead", "s1 commit dead"),
            ended("dead", 12, 2, 0, 10),
        ),
        "a batch in the round after a death": (*UNSYNCED, "s1 commit dead", "s1 commit 11 1", ended("dead", 12, 2, 0, 10)),
        "a batch in the round after another's death": (*BEHIND, "s1 commit 12 1", ended("dead", 13, 3, 1, 10)),
        "a limit after a death": (*UNSYNCED, "s1 commit dead", "s1 commit limit", DEAD),
        "a dead commit makes a batch": (*UNSYNCED, "s1 commit dead", "s1 commit dead", ended("dead", 12, 2, 0, 10)),
        "unsynced and acked": (*UNSYNCED, "s1 commit dead", "s1 commit dead", ended("dead", 11, 1, 1, 10)),
        "synced and not acked": ("s0 commit 10 1 synced", *UNSYNCED[1:], "s1 commit dead", "s1 commit dead", DEAD),
        "dead with a segment left": (*UNSYNCED, "s1 commit dead", "s1 commit dead", ended("dead", 11, 1, 0, 9)),
        "closed after a death": (*UNSYNCED, "s1 commit dead", "s1 commit dead", END_11),
    },
    status=5,
    faults=True,
)

FULL = ended("closed", NUMBER_MAX, 1, 1, 1)
# Two numbers are asked for, and then one number by each of two sessions.
NONE_LEFT = f"s1 get a none @{NUMBER_MAX}"
LIMITED = Trial(
    lines("commit 0 nosync set a 1 ; set b 2", "commit 0 nosync set a 3", "commit 1 nosync del a", "get 1 a"),
    legal={
        "the last number": ("s0 commit limit", f"s0 commit {LAST} 1", "s1 commit limit", f"s1 get a = 3 @{NUMBER_MAX}", FULL),
        "another session has it": ("s0 commit limit", "s0 commit limit", f"s1 commit {LAST} 1", NONE_LEFT, FULL),
    },
    illegal={
        "nobody has the last number": (
            *("s0 commit limit", "s0 commit limit", "s1 commit limit", f"s1 get a = 0 @{LAST}"),
            ended("closed", LAST, 0, 0, 0),
        ),
        "less is seen than what met the limit": (
            *("s0 commit limit", f"s0 commit {LAST} 1", "s1 commit limit", f"s1 get a = 0 @{LAST}"),
            FULL,
        ),
        "past the greatest number": (
            *("s0 commit limit", f"s0 commit {LAST} 1", f"s1 commit {NUMBER_MAX} 1", f"s1 get a none @{NUMBER_MAX + 1}"),
            ended("closed", NUMBER_MAX + 1, 2, 2, 1),
        ),
    },
    base=NEARLY_ALL,
    status=8,
)

# A range of keys is deleted, from its start and up to its end, and one of them is set again behind that.
RANGE_SET = ("s0 commit 10 3", "s0 commit 13 2")
RANGE_A, RANGE_B, RANGE_C = "s0 get a = 9 @15", "s0 get b none @15", "s0 get c = 3 @15"
END_15 = closed(15, 2)
RANGE = Trial(
    lines("commit 0 nosync set a 1 ; set b 2 ; set c 3", "commit 0 nosync rdel a c ; set a 9", "get 0 a", "get 0 b", "get 0 c"),
    legal={"a range is deleted": (*RANGE_SET, RANGE_A, RANGE_B, RANGE_C, END_15)},
    illegal={
        "its end is deleted too": (*RANGE_SET, RANGE_A, RANGE_B, "s0 get c none @15", END_15),
        "a key within it is kept": (*RANGE_SET, RANGE_A, "s0 get b = 2 @15", RANGE_C, END_15),
        "what is set behind it is deleted": (*RANGE_SET, "s0 get a none @15", RANGE_B, RANGE_C, END_15),
        "it is not counted": (RANGE_SET[0], "s0 commit 13 1", *(f"s0 get {it} @14" for it in ("a = 9", "b none", "c = 3")), closed(14, 2)),
    },
)
# The start is deleted, and a range that runs backwards has no key.
STARTS = Trial(
    lines("commit 0 nosync set a 1 ; set b 2", "commit 0 nosync rdel b a ; rdel b b", "get 0 a", "get 0 b", "commit 0 nosync rdel a b", "get 0 a"),
    legal={
        "a range from a key on": (
            *("s0 commit 10 2", "s0 commit 12 2", "s0 get a = 1 @14", "s0 get b = 2 @14", "s0 commit 14 1", "s0 get a none @15"),
            closed(15, 3),
        ),
    },
    illegal={
        "its start is kept": (
            *("s0 commit 10 2", "s0 commit 12 2", "s0 get a = 1 @14", "s0 get b = 2 @14", "s0 commit 14 1", "s0 get a = 1 @15"),
            closed(15, 3),
        ),
        "a range that runs backwards is deleted": (
            *("s0 commit 10 2", "s0 commit 12 2", "s0 get a none @14", "s0 get b = 2 @14", "s0 commit 14 1", "s0 get a none @15"),
            closed(15, 3),
        ),
    },
)

TRIALS = (
    *(EMPTY, EITHER, AT_LIMIT, BESIDE, CROSSED, LATER, ALONE, TRANSFER, OVER_BASE, BACKSLASH, RANGE, STARTS),
    *(SYNCED, FAILING, STALLED, WITHOUT_FAULT, HALTED, HALTED_AT_ONCE, SYNCED_AND_HALTED, DYING, LIMITED),
)
