"""What the client scripts share: a spool in a temporary folder, its server, requests, and texts in every encoding."""

import argparse
import base64
import fcntl
import functools
import http.client
import os
import random
import select
import socket
import struct
import subprocess
import unicodedata
from pathlib import Path

from spools import OPEN, PAGE, Spool

ROOT = Path(__file__).resolve().parents[2]
EVER = str(2**64 - 1)
TUS = {"Tus-Resumable": "1.0.0"}
OCTETS = {**TUS, "Content-Type": "application/offset+octet-stream"}

# Each encoding by its label, and the codec of Python that stands for it.
UNICODE = {"utf-8": "utf-8", "utf-16be": "utf-16-be", "utf-16le": "utf-16-le"}
JAPANESE = {"shift_jis": "cp932", "euc-jp": "euc_jp", "iso-2022-jp": "iso2022_jp"}
SINGLE_BYTE = {
    "ibm866": "cp866",
    "iso-8859-2": "iso8859_2",
    "iso-8859-5": "iso8859_5",
    "iso-8859-15": "iso8859_15",
    "koi8-r": "koi8_r",
    "macintosh": "mac_roman",
    **{f"windows-{n}": f"cp{n}" for n in range(1250, 1259)},
}
ENCODINGS = {**UNICODE, **JAPANESE, **SINGLE_BYTE}

KANA = [chr(c) for c in range(0x3041, 0x3094)] + [chr(c) for c in range(0x30A1, 0x30F7)]
KANJI = [bytes([row, cell]).decode("euc_jp") for row in range(0xB0, 0xCF) for cell in range(0xA1, 0xFF)]
OTHERS = list("àéîõü€Жшα中語😀🎉")


@functools.cache
def single_byte_table(label):
    """The 128 characters of the upper half, None where there is none. In windows-125x the standard fills the places of
    C1 controls that Python's codecs leave free, and has one vowel sign more."""
    table = [one_char(bytes([byte]), SINGLE_BYTE[label]) for byte in range(0x80, 0x100)]
    if label.startswith("windows"):
        table[:0x20] = [char or chr(0x80 + place) for place, char in enumerate(table[:0x20])]
    if label == "windows-1255":
        table[0x4A] = "\u05ba"
    return table


def jis0208(pointer):
    """The code point at a pointer, by the bytes that Shift_JIS has for it; the places for private use have none."""
    if 8836 <= pointer <= 10715:
        return None
    lead, trail = divmod(pointer, 188)
    lead += 0x81 if lead < 0x1F else 0xC1
    trail += 0x40 if trail < 0x3F else 0x41
    return one_char(bytes([lead, trail]), "cp932")


def jis0212(pointer):
    """The code point at a pointer, by the bytes that EUC-JP has for it. The standard has a full-width tilde."""
    char = one_char(bytes([0x8F, 0xA1 + pointer // 94, 0xA1 + pointer % 94]), "euc_jp")
    return "\uff5e" if char == "~" else char


def katakana(pointer):
    """The full-width form of a half-width katakana; the two sound marks stay spacing."""
    return {0x3D: "\u309b", 0x3E: "\u309c"}.get(pointer) or unicodedata.normalize("NFKC", chr(0xFF61 + pointer))


def one_char(bytes_, codec):
    """The character that the bytes stand for, where it is one."""
    try:
        char = bytes_.decode(codec)
    except UnicodeDecodeError:
        return None
    return char if len(char) == 1 else None


def write_indexes(folder):
    """Index files made of Python's codecs, for a run without the standard's own."""
    tables = {"jis0208": (jis0208, 11280), "jis0212": (jis0212, 8836), "iso-2022-jp-katakana": (katakana, 63)}
    for name, (entry, length) in tables.items():
        write_index(folder, name, [entry(pointer) for pointer in range(length)])
    for label in SINGLE_BYTE:
        write_index(folder, label, single_byte_table(label))


def write_index(folder, name, chars):
    lines = [f"{pointer}\t0x{ord(char):04X}\n" for pointer, char in enumerate(chars) if char]
    Path(folder, f"index-{name}.txt").write_text("".join(lines))


class Sample:
    """The bytes of an upload, the metadata to make it with, and the text that it should have."""

    def __init__(self, label, data, text, to="utf-8"):
        self.label, self.data, self.text, self.to = label, data, text, to

    def metadata(self):
        """`Upload-Metadata`: each value in Base64."""
        values = {"from": self.label, "to": self.to}
        return ",".join(f"{key} {base64.b64encode(value.encode()).decode()}" for key, value in values.items())


def random_sample(rng, label):
    """A text in an encoding, of some hundred to some thousand characters. It begins with a letter, so with no BOM.

    Of UTF-8 and the single-byte encodings any bytes are taken, since Python decodes them as the standard does. Of the
    other encodings, where its answer to faults is another, texts without faults. One in four goes from UTF-8 to the
    encoding, with references for what has no code in it.
    """
    length = rng.choice([rng.randrange(1, 300), rng.randrange(1, 6000)])
    if label not in UNICODE and rng.randrange(4) == 0:
        others = [] if label == "euc-jp" else OTHERS
        text = "a" + "".join(rng.choices(repertoire(label) + others, k=length))
        return Sample("utf-8", text.encode(), encoded(label, text), to=label)
    if label == "utf-8" or label in SINGLE_BYTE:
        data = b"a" + rng.choice([random_bytes(rng, length), faulty_text(rng, label, length)])
        return Sample(label, data, decoded(label, data).encode())
    text = "a" + "".join(rng.choices(repertoire(label), k=length))
    return Sample(label, text.encode(ENCODINGS[label]), text.encode())


def random_bytes(rng, length):
    return rng.randbytes(length)


def faulty_text(rng, label, length):
    """A text's bytes of which some are others."""
    data = bytearray("".join(rng.choices(repertoire(label), k=length)).encode(ENCODINGS[label], "ignore"))
    for _ in range(len(data) // 50):
        data[rng.randrange(len(data))] = rng.randrange(256)
    return bytes(data)


@functools.cache
def repertoire(label):
    """Characters that the encoding has, ASCII among them."""
    ascii_ = [chr(c) for c in range(0x20, 0x7F)] + ["\n"]
    if label in SINGLE_BYTE:
        return ascii_ + [char for char in single_byte_table(label) if char]
    half_width = [chr(c) for c in range(0xFF61, 0xFFA0)] if label in ("shift_jis", "euc-jp") else []
    return ascii_ + KANA + KANJI + half_width + (OTHERS if label in UNICODE else [])


def decoded(label, data):
    """What the standard decodes the bytes to."""
    if label == "utf-8":
        return data.decode("utf-8", "replace")
    table = single_byte_table(label)
    return "".join(chr(b) if b < 0x80 else table[b - 0x80] or "\ufffd" for b in data)


def encoded(label, text):
    """What the standard encodes the text to, with a reference for a character without a code. (Python's EUC-JP has
    codes that the standard only decodes: it is asked for none of them.)"""
    if label in JAPANESE:
        return text.encode(ENCODINGS[label], "xmlcharrefreplace")
    codes = {char: 0x80 + place for place, char in reversed(list(enumerate(single_byte_table(label)))) if char}
    parts = [bytes([ord(c)]) if ord(c) < 0x80 else reference(codes, c) for c in text]
    return b"".join(parts)


def reference(codes, char):
    return bytes([codes[char]]) if char in codes else f"&#{ord(char)};".encode()


def parser_of(doc):
    """A parser of the words that all scripts take: the program, the index files and the seed."""
    words = argparse.ArgumentParser(description=doc.splitlines()[0])
    words.add_argument("--program", default=str(ROOT / "crates/gateway/out/gateway"), type=absolute)
    words.add_argument("--indexes", help="a folder with the standard's index files; else Python's codecs make them")
    words.add_argument("--seed", default="1", help="of all that is random")
    return words


def absolute(path):
    return str(Path(path).resolve())


def indexes_in(folder, given):
    """The folder of the index files: the one that was given, or else one that is made in a folder."""
    if given:
        return Path(given)
    made = Path(folder, "indexes")
    made.mkdir()
    write_indexes(made)
    return made


def memory():
    """A folder in memory for files that nobody needs to sync, where there is one."""
    return "/dev/shm" if os.access("/dev/shm", os.W_OK) else None


class Wrong(Exception):
    """What the program did isn't what it has to do."""


def same(what, got, wanted):
    """Fails where something is another than what it has to be."""
    if got != wanted:
        raise Wrong(f"{what}: {got!r}, not {wanted!r}")


def holds(what, does):
    """Fails where something doesn't hold."""
    if not does:
        raise Wrong(what)


def build_library(folder, name, source):
    """A library that is loaded before the C library, made of C in a folder: its path."""
    Path(folder, f"{name}.c").write_text(source)
    library = Path(folder, f"{name}.so")
    made = ["cc", "-shared", "-fPIC", "-O1", "-Wall", "-o", str(library), str(Path(folder, f"{name}.c")), "-ldl"]
    subprocess.run(made, check=True)
    return library


def format_spool(program, spool, blocks, indexes):
    """Makes a spool with the index files of a folder."""
    words = [program, "format", str(spool), "--blocks", str(blocks), "--indexes", str(indexes)]
    print(subprocess.run(words, check=True, capture_output=True, text=True, timeout=300).stdout.strip())


def state_page(spool):
    """Where the state page of a spool begins."""
    return Spool(read_at(spool, 0, 12)).state


def version_of(spool):
    """The version that a spool's state page says. (Its gate is closed.)"""
    return int.from_bytes(read_at(spool, state_page(spool), 4), "big")


def has_open_gate(spool):
    """Whether a spool was left in a commit that stands and isn't at its places yet."""
    return read_at(spool, PAGE, 1)[0] == OPEN


def read_at(path, place, count):
    with open(path, "rb") as file:
        file.seek(place)
        return file.read(count)


def make_old(spool):
    """Makes a spool of version 2, whose gate is closed, one of version 1: the number, and each unknown length."""
    state = state_page(spool)
    with open(spool, "r+b") as file:
        write_at(file, state, (1).to_bytes(4, "big"))
        for record in range(state + 4096, state + 257 * 4096, 2048):
            if read_at(spool, record + 1602, 1) == b"\1":
                write_at(file, record + 8, b"\xff" * 8)
                write_at(file, record + 1602, b"\0")


def write_at(file, place, data):
    file.seek(place)
    file.write(data)


def wait_for_lock(spool):
    """Waits until nobody has a spool open: the server of a proxy that was ended is gone a moment later."""
    with open(spool, "rb") as file:
        fcntl.flock(file, fcntl.LOCK_EX)


class Server:
    """A gateway that serves a spool at a port of its own."""

    def __init__(self, program, spool, env=None):
        self.env = env
        self.words = [program, "serve", str(spool), "--port", "0", "--connections", EVER, "--turns", EVER]
        self.start()

    def start(self):
        """Starts it, and waits until it listens."""
        self.process = subprocess.Popen(self.words, stdout=subprocess.PIPE, text=True, env=self.env)
        if not select.select([self.process.stdout], [], [], 120)[0]:
            self.kill()
            raise Wrong("the server doesn't listen")
        line = self.process.stdout.readline()
        if not line.startswith("listening 127.0.0.1:"):
            self.process.wait(60)
            raise Wrong(f"the server says {line!r}, and ends with status {self.process.returncode}")
        self.port = int(line.rpartition(":")[2])

    def kill(self):
        """Ends it hard, by its own process id. One that ended before, by itself, is a failure."""
        if self.process is None:
            return
        process, self.process = self.process, None
        status = process.poll()
        process.kill()
        process.wait(60)
        process.stdout.close()
        wait_for_lock(self.words[2])
        if status is not None:
            raise Wrong(f"the server ended by itself, with status {status}")


class Refused(Wrong):
    """A reply whose status isn't the one that was asked for."""

    def __init__(self, request, status, number):
        super().__init__(f"{request}: {status}, X-Refusal {number}")
        self.status = status


class Client:
    """A tus client on one connection."""

    def __init__(self, port):
        self.port, self.reopens = port, True
        self.connection = http.client.HTTPConnection("127.0.0.1", port, timeout=60)

    def close(self):
        self.connection.close()

    def ask(self, wanted, method, path, headers, body=None):
        """The reply's headers and body, where its status is the wanted one. A kept connection that the server ended
        meanwhile is opened again (an idle one may be), unless the client isn't to."""
        kept = self.reopens and self.connection.sock is not None
        try:
            reply, text = self.reply(method, path, headers, body)
        except (http.client.RemoteDisconnected, BrokenPipeError, ConnectionResetError):
            self.connection.close()
            if not kept:
                raise
            reply, text = self.reply(method, path, headers, body)
        if reply.status != wanted:
            raise Refused(f"{method} {path}", reply.status, reply.headers["X-Refusal"])
        return reply.headers, text

    def reply(self, method, path, headers, body):
        self.connection.request(method, path, body=body, headers=headers)
        reply = self.connection.getresponse()
        return reply, reply.read()

    def create(self, sample, deferred=False):
        """The path of a new upload, whose length may be deferred."""
        length = {"Upload-Defer-Length": "1"} if deferred else {"Upload-Length": str(len(sample.data))}
        headers = {**TUS, **length, "Upload-Metadata": sample.metadata()}
        return self.ask(201, "POST", "/files", headers)[0]["Location"]

    def offset(self, path):
        """How many bytes were accepted."""
        return int(self.ask(200, "HEAD", path, TUS)[0]["Upload-Offset"])

    def length(self, path):
        """How many bytes were declared, None where that is deferred."""
        headers = self.ask(200, "HEAD", path, TUS)[0]
        return None if headers["Upload-Defer-Length"] == "1" else int(headers["Upload-Length"])

    def patch(self, path, offset, piece, length=None):
        """The offset after a piece, with which the upload's length may be declared. `offset` is one that was told, so
        so many bytes are acknowledged. Where a body that was cut before reached the upload since then, the piece is
        refused, and the offset is asked for again: it is greater now."""
        headers = {**OCTETS, "Upload-Offset": str(offset), **declaring(length)}
        try:
            reached = int(self.ask(204, "PATCH", path, headers, piece)[0]["Upload-Offset"])
        except Refused as refused:
            if refused.status != 409:
                raise
            reached = self.offset(path)
            holds(f"{path}: refused with 409 at {offset}, and HEAD says {reached}", reached > offset)
            return reached
        same(f"{path}: the offset after {len(piece)} bytes at {offset}", reached, offset + len(piece))
        return reached

    def text(self, path):
        return self.ask(200, "GET", path, {})[1]

    def delete(self, path):
        self.ask(204, "DELETE", path, TUS)

    def is_gone(self, path):
        """Whether there is no such upload."""
        return self.status("HEAD", path, TUS) == 404

    def status(self, method, path, headers, body=None):
        """The reply's status, whichever it is."""
        return self.reply(method, path, headers, body)[0].status

    def cut(self, path, offset, piece, count, reset, length=None):
        """Says that more bytes come than it sends, and ends the connection, by a reset or in order. The next request
        opens another one."""
        self.connection.close()
        lines = [f"PATCH {path} HTTP/1.1", f"Upload-Offset: {offset}", f"Content-Length: {count}"]
        lines += [f"{name}: {value}" for name, value in {**OCTETS, **declaring(length)}.items()]
        with socket.create_connection(("127.0.0.1", self.port), timeout=60) as raw:
            raw.sendall("\r\n".join(lines + ["", ""]).encode() + piece)
            if reset:
                raw.setsockopt(socket.SOL_SOCKET, socket.SO_LINGER, struct.pack("ii", 1, 0))


def declaring(length):
    """The header of a PATCH that declares the length of its upload, if it does."""
    return {} if length is None else {"Upload-Length": str(length)}


def curl(*words, body=b""):
    """What curl prints."""
    done = subprocess.run(["curl", "-sS", "--max-time", "60", *words], input=body, capture_output=True, check=True)
    return done.stdout


def fields(headers):
    return [word for name, value in headers.items() for word in ("-H", f"{name}: {value}")]


def header(reply, name):
    """The value of a header line."""
    for line in reply.splitlines():
        if line.startswith(f"{name}: "):
            return line.partition(": ")[2]
    raise ValueError(f"no {name} in {reply!r}")


def has_tuspy():
    try:
        import tusclient  # noqa: F401
    except ImportError:
        return False
    return True


def rng_of(seed, *names):
    """Random numbers that are the same for the same seed and names."""
    return random.Random(f"{seed} {names}")
