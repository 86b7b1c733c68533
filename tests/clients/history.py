"""Random changes as lines of a script, and the uploads that a spool has after each of them."""

import codecs
from collections import namedtuple

from growths import ask, came, patch, post
from harness import ENCODINGS, JAPANESE, SINGLE_BYTE, UNICODE, decoded, encoded, repertoire

MOST_TEXT = 120_000
# An upload: its encodings, all of its bytes, how many of them are declared (None: not known yet) and accepted.
Upload = namedtuple("Upload", "label to data declared accepted")


def text_of(upload):
    """The text of the bytes that were accepted: a character that isn't whole isn't there yet."""
    data = upload.data[: upload.accepted]
    if upload.label in SINGLE_BYTE:
        text = decoded(upload.label, data)
    else:
        text = codecs.getincrementaldecoder(ENCODINGS[upload.label])().decode(data)
    return text.encode() if upload.to == "utf-8" else encoded(upload.to, text)


class History:
    """Changes one after the other. `states` are the uploads by number before the first one and after each; `replies`
    says of each whether it is answered (a body that is cut isn't), and `lines` is the script."""

    def __init__(self, rng, count, first=None, number=1):
        self.rng, self.lines = rng, ["open 0", "open 1"]
        self.states, self.replies, self.next = [dict(first or {})], [], number
        # (of a spool with so many uploads before the first change)
        self.number = number
        while len(self.replies) < count:
            self.one_more()

    @property
    def count(self):
        return len(self.replies)

    @property
    def answered(self):
        return sum(self.replies)

    def next_at(self, place):
        """The number that the next upload has after so many changes."""
        return max([self.number, *(number + 1 for state in self.states[: place + 1] for number in state)])

    def one_more(self):
        """A change of any kind, or two at once."""
        uploads = self.states[-1]
        short = [number for number, it in uploads.items() if it.accepted < len(it.data)]
        unsaid = [number for number, it in uploads.items() if it.declared is None and number not in short]
        text = sum(len(text_of(it)) for it in uploads.values())
        kind = self.rng.randrange(10)
        if not uploads or kind < 2 and len(uploads) < 12:
            self.create()
        elif unsaid and kind < 8:
            self.declare(self.rng.choice(unsaid))
        elif kind < 4 or text > MOST_TEXT or not short:
            self.delete(self.rng.choice(list(uploads)))
        elif kind < 5:
            self.cut(self.rng.choice(short))
        elif kind < 6 and len(short) > 1:
            self.beside(*self.rng.sample(short, 2))
        else:
            number = self.rng.choice(short)
            self.append(0, number, *self.head(number), slice(None))
            self.reached(number)

    def change(self, number, upload, answered=True):
        """Notes what a change makes of an upload, None where it deletes it."""
        state = {**self.states[-1], number: upload}
        self.states.append({number: it for number, it in state.items() if it})
        self.replies.append(answered)

    def create(self):
        """A new upload, whose length may be deferred."""
        rng = self.rng
        label = rng.choice([*UNICODE, *JAPANESE, *list(SINGLE_BYTE)[:6]])
        to = rng.choice(["koi8-r", "windows-1252"]) if label in UNICODE and rng.randrange(3) == 0 else "utf-8"
        length = rng.choice([rng.randrange(1, 60), rng.randrange(1, 9000)])
        text = "a" + "".join(rng.choices(repertoire(label), k=length))
        data = text.encode("utf-8") if label == "utf-8" else bytes_of(label, text)
        upload = Upload(label, to, data, None if rng.randrange(3) == 0 else len(data), 0)
        self.lines += post(0, upload.declared, label, to=to)
        self.change(self.next, upload)
        self.next += 1

    def delete(self, number):
        self.lines += ask(0, "DELETE", number)
        self.change(number, None)

    def declare(self, number):
        """The length of an upload whose bytes are all there."""
        upload = self.states[-1][number]
        self.lines += patch(0, number, upload.accepted, b"", len(upload.data))
        self.change(number, upload._replace(declared=len(upload.data)))

    def head(self, number):
        """The bytes that come next of an upload, and the length where it comes with them."""
        upload = self.states[-1][number]
        size = self.rng.choice([self.rng.randrange(1, 9), self.rng.randrange(1, 12_000), len(upload.data)])
        piece = upload.data[upload.accepted : upload.accepted + size]
        ends = upload.accepted + len(piece) == len(upload.data)
        declares = upload.declared is None and ends and self.rng.randrange(2) == 0
        self.piece, self.declared = piece, len(upload.data) if declares else upload.declared
        return piece, len(upload.data) if declares else None

    def reached(self, number, size=None, answered=True):
        """The bytes that came last are accepted, with the length that came with them."""
        upload = self.states[-1][number]
        size = len(self.piece) if size is None else size
        self.change(number, upload._replace(accepted=upload.accepted + size, declared=self.declared), answered)

    def append(self, conn, number, piece, length, part):
        """A PATCH of a piece, of whose body a part is sent."""
        offset = self.states[-1][number].accepted
        lines = patch(conn, number, offset, piece, length)
        self.lines += lines[: len(lines) - len(came(conn, piece))] + came(conn, piece[part])

    def cut(self, number):
        """A body of which only the first bytes come: these are accepted, and nobody is told."""
        piece, length = self.head(number)
        size = self.rng.randrange(1, len(piece) + 1)
        if size == len(piece):
            self.append(0, number, piece, length, slice(None))
            self.reached(number)
            return
        self.append(1, number, piece, length, slice(size))
        self.lines += ["cut 1", "open 1"]
        self.declared = self.states[-1][number].declared if length is None else length
        self.reached(number, size, answered=False)

    def beside(self, number, other):
        """A body whose second half comes after a change of another upload."""
        piece, length = self.head(number)
        half = len(piece) // 2
        self.append(1, number, piece, length, slice(half))
        self.delete(other)
        self.lines += came(1, piece[half:])
        self.reached(number)


def bytes_of(label, text):
    """The bytes of a text in an encoding."""
    if label in SINGLE_BYTE:
        return encoded(label, text)
    return text.encode(ENCODINGS[label])
