"""The bytes of a spool, read in Python as docs/FORMAT.md says them: what an opening has to find, or to refuse."""

from collections import namedtuple

PAGE = 4096
RECORD = 2048
MAGIC = b"TUSSPOOL"
OPEN = 0xA5
NO_CODE = b"\xff" * 4
MOST = 1 << 30
NOT_A_SPOOL, DAMAGED, VERSION = "15 NotASpool", "2 Damaged", "16 Version"
ENTRIES = [11280, 8836, 63] + [128] * 15
ENCODINGS = ["utf-8", "utf-16be", "utf-16le", "shift_jis", "euc-jp", "iso-2022-jp", "ibm866", "iso-8859-2"]
ENCODINGS += ["iso-8859-5", "iso-8859-15", "koi8-r", "macintosh", *(f"windows-{n}" for n in range(1250, 1259))]

# `declared` is None while it isn't known; `state` and `metadata` are bytes.
Record = namedtuple("Record", "slot number declared accepted length state metadata")


def number(data, at, size):
    return int.from_bytes(data[at : at + size], "big")


def size_of(blocks):
    """How many bytes a spool of so many text blocks has."""
    return PAGE * (25 + 2 * (257 + -(-blocks // 512)) + blocks)


class Spool:
    """A spool's bytes by their places."""

    def __init__(self, data):
        self.data = data
        self.blocks = number(data, 8, 4)
        self.journal = 257 + -(-self.blocks // 512)
        self.indexes = PAGE * (3 + self.journal)
        self.state = PAGE * (25 + self.journal)
        self.rows = self.state + PAGE * 257
        self.texts = self.state + PAGE * self.journal
        self.size = size_of(self.blocks)

    def is_one(self):
        """Whether it is a spool at all."""
        return self.data[:8] == MAGIC and 16 <= self.blocks <= 65536 and len(self.data) >= self.size

    def is_open(self):
        """Whether the gate is open, so that the journal counts."""
        return self.data[PAGE] == OPEN

    def checked(self):
        """The bytes that mean something while the gate is closed, but for the texts."""
        return self.data[:PAGE] + self.data[self.indexes : self.texts]

    def recovered(self):
        """The spool whose journal was replayed, None where the journal's head is out of form."""
        if not self.is_open():
            return self
        count, data = number(self.data, 2 * PAGE, 4), bytearray(self.data)
        pages = [number(data, 2 * PAGE + 4 + 4 * k, 4) for k in range(min(count, self.journal))]
        area = range(self.state // PAGE, self.texts // PAGE)
        if not 1 <= count <= self.journal or pages != sorted(set(pages)) or any(page not in area for page in pages):
            return None
        for k, page in enumerate(pages):
            data[PAGE * page : PAGE * (page + 1)] = data[PAGE * (3 + k) : PAGE * (4 + k)]
        data[PAGE] = 0
        return Spool(bytes(data))

    def version(self):
        return number(self.data, self.state, 4)

    def records(self):
        """The record of each upload, by its number."""
        all_of_them = (self.record(slot) for slot in range(512))
        return sorted((record for record in all_of_them if record.number), key=lambda record: record.number)

    def record(self, slot):
        at = self.state + PAGE + RECORD * slot
        unknown = self.data[at + 8 : at + 16] == b"\xff" * 8 if self.version() == 1 else self.data[at + 1602] == 1
        declared = None if unknown else number(self.data, at + 8, 8)
        fields = [number(self.data, at, 8), declared, number(self.data, at + 16, 8), number(self.data, at + 24, 8)]
        state, most = self.data[at + 32 : at + 64], number(self.data, at + 64, 2)
        return Record(slot, *fields, state, self.data[at + 66 : at + 66 + most])

    def owners(self):
        """Of each block the slot that owns it plus 1, and its ordinal."""
        return [(number(self.data, at, 4), number(self.data, at + 4, 4)) for at in self.rows_at()]

    def rows_at(self):
        return range(self.rows, self.rows + 8 * self.blocks, 8)

    def text(self, record):
        """The text of an upload: its blocks in the order of their ordinals."""
        owned = sorted((row[1], block) for block, row in enumerate(self.owners()) if row[0] == record.slot + 1)
        starts = [self.texts + PAGE * block for _, block in owned]
        return b"".join(self.data[at : at + PAGE] for at in starts)[: record.length]


def listed(record):
    """The line that `list` has for an upload, in small letters."""
    declared = "?" if record.declared is None else record.declared
    names = [ENCODINGS[byte] if byte < len(ENCODINGS) else "none" for byte in record.state[:2]]
    mode = "fatal" if record.state[2] else "html"
    return f"{record.number} {record.accepted}/{declared} {record.length} {' '.join(names)} {mode}"


def found(data):
    """What an opening finds in a file: a refusal, or (None, the spool with its journal replayed). Whether the state
    bytes and the texts fit one another isn't looked at, so a spool that is given back may still be `Damaged`."""
    spool = Spool(data)
    if not spool.is_one():
        return NOT_A_SPOOL, None
    spool = spool.recovered()
    if spool is None:
        return DAMAGED, None
    if spool.version() not in (1, 2):
        return VERSION, None
    return (None, spool) if is_sound(spool) else (DAMAGED, None)


def is_sound(spool):
    """Whether all stands that an opening checks, but for what the state bytes say."""
    data = spool.data
    later, numbers = number(data, spool.state + 4, 8), [record.number for record in spool.records()]
    return (
        not any(data[12:PAGE])
        and not any(data[spool.state + 12 : spool.state + PAGE])
        and 1 <= later <= 10**18
        and len(numbers) == len(set(numbers))
        and all(it < later for it in numbers)
        and are_indexes(data[spool.indexes : spool.state])
        and all(is_record(spool, slot) for slot in range(512))
        and are_rows(spool)
    )


def are_indexes(area):
    """Whether an index area is one that is written: a file that isn't set has no entries."""
    at, flags = 32, area[:18]
    if any(flag > 1 for flag in flags) or any(area[18:32]) or any(area[32 + 4 * sum(ENTRIES) :]):
        return False
    for flag, count in zip(flags, ENTRIES):
        table, at = area[at : at + 4 * count], at + 4 * count
        entries = [table[k : k + 4] for k in range(0, len(table), 4)]
        if not all(entry == NO_CODE or flag and is_scalar(number(entry, 0, 4)) for entry in entries):
            return False
    return True


def is_scalar(point):
    return point < 0xD800 or 0xE000 <= point <= 0x10FFFF


def is_record(spool, slot):
    """Whether a record is free and zero, or has a length, counts and metadata that fit one another."""
    at = spool.state + PAGE + RECORD * slot
    data, record = spool.data[at : at + RECORD], spool.record(slot)
    if not record.number:
        return not any(data)
    most = number(data, 64, 2)
    unknown, tag = record.declared is None, data[1602]
    return (
        tag == (1 if unknown and spool.version() == 2 else 0)
        and (not tag or not any(data[8:16]))
        and (unknown or record.declared <= MOST)
        and record.accepted <= (MOST if unknown else record.declared)
        and most <= 1536
        and all(0x20 <= byte <= 0x7E for byte in record.metadata)
        and not any(data[66 + most : 1602])
        and not any(data[1603:])
    )


def are_rows(spool):
    """Whether each upload owns the blocks of its text, each ordinal once, and nobody owns others."""
    ordinals = {}
    for owner, ordinal in spool.owners():
        if owner > 512 or not owner and ordinal:
            return False
        ordinals.setdefault(owner, []).append(ordinal)
    ordinals.pop(0, None)
    counts = {it.slot + 1: -(-it.length // PAGE) for it in spool.records() if it.length}
    rest = spool.data[spool.rows + 8 * spool.blocks : spool.texts]
    return (
        {owner: len(them) for owner, them in ordinals.items()} == counts
        and all(sorted(them) == list(range(len(them))) for them in ordinals.values())
        and not any(rest)
    )


def next_number(path):
    """The next number of a spool, by its bytes, with its journal replayed. None where that is out of form."""
    spool = Spool(path.read_bytes()).recovered()
    return number(spool.data, spool.state + 4, 8) if spool else None
