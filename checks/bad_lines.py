"""Lines that make a script bad (docs/formats/program.md, "The script"), by what is wrong with them."""

KEY_LIMIT = 65_535
VALUE_LIMIT = 1_048_576

SAYING_NOTHING = (
    *(b"close", b"GET 0 a", b"get", b"get 0", b"get a", b"get 0 a b", b"get 0 ;", b"get 0 a;b", b"get 0 a ; get 0 b"),
    *(b"commit", b"commit 0", b"commit 0 sync", b"commit 0 set a 1", b"commit 0 async set a 1", b"commit sync 0 set a 1"),
    *(b"commit 0 sync put a 1", b"commit 0 sync set a", b"commit 0 sync set a 1 2", b"commit 0 sync del"),
    *(b"commit 0 sync rdel", b"commit 0 sync rdel a", b"commit 0 sync rdel a b c", b"commit 0 sync rdel a ; set b 1"),
    *(b"commit 0 sync del a b", b"commit 0 sync del a note", b"commit 0 nosync note n", b"commit 0 sync note n ; note m"),
    *(b"commit 0 sync note n m ; set a 1", b"commit 0 sync ;", b"commit 0 sync ; set a 1", b"commit 0 sync set a 1 ;"),
    *(b"commit 0 sync set a 1 ; ; del b", b"commit 0 sync set a 1 del b", b"commit 0 sync set a 1;2"),
    *(b"commit 0 sync set a 1; del b", b"round 1", b"round ;", b"halt 1", b"halt now"),
    *(b"stall", b"stall p", b"stall p 1 2", b"stall 1 p"),
)

NUMBERS = (
    *(b"get 64 a", b"get 100 a", b"get 18446744073709551616 a", b"get 00 a", b"get 01 a", b"get +1 a", b"get -1 a"),
    *(b"get 0x1 a", b"get one a", b"commit 64 sync set a 1", b"commit 063 sync set a 1", b"commit s sync set a 1"),
    *(b"stall p 0", b"stall s 0", b"stall p 00", b"stall p 01", b"stall p 100001", b"stall s 100001"),
    *(b"stall p 4294967297", b"stall p -1", b"stall p 1e3", b"stall p many"),
    *(b"stall q 1", b"stall P 1", b"stall primary 1", b"stall ps 1"),
)

BYTES = (
    *(b"get 0  a", b"get  0 a", b" get 0 a", b"get 0 a ", b"get 0 a\t", b"get 0 \ta", b" ", b"\t", b" # said", b"round "),
    *(b" halt", b"commit 0 sync set a 1  ; del b", b"commit 0 sync set a 1 ; del b ", b"get 0 a\r", b"round\r"),
    *(b"get 0 \x1f", b"get 0 a\x7f", b"get 0 \x80", b"commit 0 sync set \xc3\xa9 1", b"commit 0 sync set a 1 ; note \0"),
)

LENGTHS = (
    b"get 63 " + b"x" * (KEY_LIMIT + 1),
    b"commit 0 sync set %s 1" % (b"x" * (KEY_LIMIT + 1)),
    b"commit 0 sync set a 1 ; del " + b"x" * (KEY_LIMIT + 1),
    b"commit 0 sync rdel %s b" % (b"x" * (KEY_LIMIT + 1)),
    b"commit 0 sync rdel a " + b"x" * (KEY_LIMIT + 1),
    b"commit 0 sync set a %s ; del b" % (b"x" * (VALUE_LIMIT + 1)),
    b"commit 0 sync del a ; note " + b"x" * (VALUE_LIMIT + 1),
)

LINES = (*SAYING_NOTHING, *NUMBERS, *BYTES, *LENGTHS)

# What stands before and after a bad line, and its number then.
PLACES = (
    (b"", b"\ncommit 0 sync set a 1\n", 1),
    (b"commit 0 sync set a 1\n", b"\nnor this\nhalt\n", 2),
    (b"commit 0 sync set a 1\n\nround\n# so far\n", b"", 5),
)

# Scripts that go on after a halt, and the number of their first bad line.
AFTER_HALT = (
    (b"halt\nget 0 a", 2),
    (b"halt\nhalt\n", 2),
    (b"halt\nbad\nworse\n", 2),
    (b"commit 0 sync set a 1\nhalt\ncommit 0 sync set a 2\nget 0 a\n", 3),
    (b"commit 0 sync set a 1\nhalt\n\n# no more\nround\n", 5),
    (b"get 0 a\n\nhalt\n#\nstall p 1", 5),
    (b"get 64 a\nhalt\nget 0 a\n", 1),
)


def four_values(fewer):
    """A line that commits four values of the greatest length, the last of which has so many bytes fewer."""
    entries = [b"set %s %s" % (key, b"v" * (VALUE_LIMIT - (fewer if key == b"d" else 0))) for key in (b"a", b"b", b"c", b"d")]
    return b"commit 0 nosync " + b" ; ".join(entries)
