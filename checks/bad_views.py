"""Lines that make the source of a view bad, by what is wrong with them, and texts with an empty line."""

# A view has no line that says nothing.
SAYING_NOTHING = (b"#", b"#x", b"# hold 10", b"# ", b"#purge")

VERBS = (
    *(b"close", b"holds 10", b"hol 10", b"hold10", b"10", b"purges", b"purg", b"rel 0", b"recover", b"view", b"round", b"halt"),
    *(b"HOLD 10", b"Hold 10", b"GET 0 a", b"Get 0 a", b"SCAN 0", b"Scan 0 a", b"RELEASE 0", b"Release 0", b"PURGE", b"Purge"),
    *(b"commit 0 sync set a 1", b"stall p 1", b"set a 1"),
)

WORDS = (
    *(b"hold", b"hold 10 11", b"hold 10 a", b"hold 10 hold 11", b"get", b"get 0", b"get a", b"get a 0", b"get 0 a b"),
    *(b"scan", b"scan a", b"scan a 0", b"scan 0 a b", b"release", b"release a", b"release 0 1", b"release 0 a"),
    *(b"purge 0", b"purge a", b"purge purge"),
)

NUMBERS = (
    *(b"hold 00", b"hold 01", b"hold 010", b"hold +10", b"hold -1", b"hold 0x10", b"hold 1e1", b"hold 10.0", b"hold 1_0"),
    *(b"hold ten", b"hold @10", b"hold 18446744073709551616", b"hold 18446744073709551626", b"hold 99999999999999999999"),
    *(b"hold 340282366920938463463374607431768211466", b"get 00 a", b"get 01 a", b"get +0 a", b"get -0 a", b"get one a"),
    *(b"get 18446744073709551616 a", b"scan 00", b"scan 01", b"scan -1", b"scan 00 a", b"scan 18446744073709551616"),
    *(b"scan 18446744073709551616 a", b"release 00", b"release +0", b"release 18446744073709551616"),
)

BLANKS = (
    *(b" ", b"\t", b"hold  10", b"hold \t10", b"hold\t\t10", b" hold 10", b"\thold 10"),
    *(b"hold 10 ", b"hold 10\t", b"hold ", b"hold 1 0", b"get  0 a", b"get 0  a", b"get 0\t\ta"),
    *(b" get 0 a", b"get 0 a ", b"get 0 a\t", b"get 0 "),
    *(b"scan 0 ", b"scan 0\t", b"scan  0", b"scan 0  a", b"scan 0 a ", b"release 0 ", b"release  0"),
    *(b"purge ", b"purge\t", b" purge"),
)

BYTES = (
    *(b"\r", b"hold 10\r", b"get 0 a\r", b"scan 0\r", b"scan 0 a\r", b"release 0\r", b"purge\r", b"hold\r10", b"hold\x0b10"),
    *(b";", b"get 0 ;", b"get 0 a;", b"get 0 ;a", b"get 0 a;b", b"get 0 a ; get 0 b", b"scan 0 ;", b"scan 0 a;b", b"hold 10;"),
    *(b"purge;", b"purge ; purge", b"release 0;"),
    *(b"get 0 \x1f", b"get 0 a\x7f", b"get 0 \x80", b"get 0 \xc3\xa9", b"get 0 \0", b"scan 0 \xff", b"scan 0 a\0", b"purge\0"),
    *(b"\0", b"hold 1\x000", b"\xef\xbb\xbfhold 10"),
)

LINES = (*SAYING_NOTHING, *VERBS, *WORDS, *NUMBERS, *BLANKS, *BYTES)

# What stands before and after a bad line, and its number then.
PLACES = (
    (b"", b"\npurge\n", 1),
    (b"hold 10\n", b"\nnor this\nhold\n", 2),
    (b"hold 10\nget 0 a\nscan 0\nrelease 0\n", b"", 5),
)

# Texts with an empty line, and the number of the first one.
EMPTY = (
    (b"\n", 1),
    (b"\npurge", 1),
    (b"\n\nbad", 1),
    (b"purge\n\n", 2),
    (b"purge\n\npurge\n", 2),
    (b"hold 10\nscan 0\n\n\n\n", 3),
)
