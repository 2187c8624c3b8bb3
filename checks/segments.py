"""Batches, segments and streams as docs/formats has them, written a second time: to compare what the program writes with, and
to make the directories that it recovers.
"""

BLOCK = 32_768
HEADER, SYNC_HEADER = 11, 19
FULL, FIRST, MIDDLE, LAST = 5, 6, 7, 8
# What is added to the type of a chunk that has a sync offset.
SYNC = 4
# The numbers of all records, for a segment that is synced before each.
EACH = range(2**63)
SET, DELETE, NOTE, RANGE_DELETE = 1, 0, 3, 15
LOG = 1
FIRST_NUMBER = 10


def _table():
    rows = []
    for row in range(256):
        for _ in range(8):
            row = row >> 1 ^ (0x82F63B78 if row & 1 else 0)
        rows.append(row)
    return rows


TABLE = _table()


def crc32c(data):
    register = 0xFFFFFFFF
    for byte in data:
        register = register >> 8 ^ TABLE[(register ^ byte) & 0xFF]
    return register ^ 0xFFFFFFFF


def masked(crc):
    return ((crc >> 15 | crc << 17) + 0xA282EAD8) & 0xFFFFFFFF


def varint(number):
    spelled = bytearray()
    while number >= 0x80:
        spelled.append(number & 0x7F | 0x80)
        number >>= 7
    spelled.append(number)
    return bytes(spelled)


def string(text):
    return varint(len(text)) + text


def set_of(key, value):
    return bytes([SET]) + string(key) + string(value)


def delete_of(key):
    return bytes([DELETE]) + string(key)


def range_delete_of(start, end):
    return bytes([RANGE_DELETE]) + string(start) + string(end)


def note_of(text):
    return bytes([NOTE]) + string(text)


def batch(first, *entries, count=None):
    """A batch of entries. Notes are not counted. Another count may be given, as a broken batch has it."""
    counted = sum(it[0] != NOTE for it in entries) if count is None else count
    return first.to_bytes(8, "little") + counted.to_bytes(4, "little") + b"".join(entries)


def header_of(offset):
    """How long a chunk's header is, by its sync offset. None is a chunk of the form that has none."""
    return HEADER if offset is None else SYNC_HEADER


def batches_of(pairs, first=FIRST_NUMBER):
    """Batches of one Set each, a pair of a key and a value, numbered in a row."""
    return [batch(number, set_of(*it)) for number, it in enumerate(pairs, first)]


def sets(first, key, *values):
    """Batches which set the same key to one value after another, numbered in a row."""
    return batches_of([(key, value) for value in values], first)


def chunk(kind, payload, log=LOG, offset=None):
    synced = b"" if offset is None else offset.to_bytes(8, "little")
    covered = bytes([kind + SYNC * bool(synced)]) + log.to_bytes(4, "little") + synced + payload
    checksum = masked(crc32c(covered)).to_bytes(4, "little")
    return checksum + len(payload).to_bytes(2, "little") + covered


def append(segment, record, log=LOG, offset=None):
    """Appends a record, fragment by fragment, and the zeros at the end of a block."""
    header, begun = header_of(offset), False
    while True:
        room = BLOCK - len(segment) % BLOCK - header
        part, record = record[:room], record[room:]
        ends = not record
        segment += chunk((LAST if begun else FULL) if ends else (MIDDLE if begun else FIRST), part, log, offset)
        left = BLOCK - len(segment) % BLOCK
        if left < header:
            segment += bytes(left)
        if ends:
            return
        begun = True


def segment(records, log=LOG):
    """A segment without sync offsets, as runs once wrote them, of records, which are batches where it is to be recovered.

    A WAL's log number has its low 32 bits.
    """
    laid = bytearray()
    for record in records:
        append(laid, record, log % 2**32)
    return bytes(laid)


def written(records, log=LOG, synced_before=()):
    """The segment that a run writes of records, by the numbers of those before which it was synced."""
    laid, synced = bytearray(), 0
    for number, record in enumerate(records):
        synced = len(laid) if number in synced_before else synced
        append(laid, record, log % 2**32, synced)
    return bytes(laid)


def log_of(pairs, first=FIRST_NUMBER, log=LOG, synced_before=()):
    """The log of a run that commits those batches one after another."""
    return written(batches_of(pairs, first), log, synced_before)


def table(upto, number, pairs):
    """The table of that number, of keys with their values, by the number that comes next after them."""
    head = number.to_bytes(8, "little") + len(pairs).to_bytes(8, "little")
    return written([head, *batches_of(sorted(pairs), number - len(pairs))], upto)


def rewritten(content, records, log=LOG):
    """The segment that a run may have written of records, with the sync offsets that stand in a log of them.

    The offset of a record is 0 or the place behind one before it, and none is less than the one before. Another offset is taken
    for the least one, so that the segment differs from the log.
    """
    laid, places, synced = bytearray(), {0}, 0
    for record in records:
        offset = int.from_bytes(content[len(laid) + HEADER : len(laid) + SYNC_HEADER], "little")
        synced = offset if offset >= synced and offset in places else synced
        append(laid, record, log % 2**32, synced)
        places.add(len(laid))
    return bytes(laid)


# ---- streams


def frame(text):
    """A text in the frame that it has in a stream. That of no byte is the end mark."""
    return len(text).to_bytes(4, "little") + masked(crc32c(text)).to_bytes(4, "little") + text


def stream(batches):
    """The stream of those batches."""
    return b"".join((b"PBWSHIP1", *map(frame, batches), frame(b"")))


# ---- generated loads

SEED_STEP, BATCH_STEP = 0x5851F42D4C957F2D, 0x14057B7EF767814F
ROUND, SESSIONS, KEYS = 1_000, 4, 1_000


def load_entries(seed, number):
    """The key that a batch of a load sets, its value, and the key that it deletes, if it deletes one."""
    word = b"%016x" % ((seed * SEED_STEP + number * BATCH_STEP) % 2**64)
    deleted = b"k%04d" % ((number - 4) % KEYS) if number % 8 == 7 else None
    return b"k%04d" % (number % KEYS), word * 4, deleted


def load_batches(seed, numbers, first=FIRST_NUMBER):
    """Yields the batches of a load with these numbers as they are committed in this order, from this number on."""
    for number in numbers:
        key, value, deleted = load_entries(seed, number)
        entries = [set_of(key, value)] + ([delete_of(deleted)] if deleted else [])
        yield batch(first, *entries)
        first += len(entries)


def load_store(seed, count):
    """The store after a load. Keys of different sessions differ, so it is the same in whatever order they commit."""
    store = {}
    for number in range(count):
        key, value, deleted = load_entries(seed, number)
        store[key] = value
        store.pop(deleted, None)
    return store
