"""Clients that read late while all sixteen places are taken, and what the server's memory comes to.

usage: slow.py [--program PATH] [--indexes DIR] [--seed N]

Twenty clients keep their connections and ask HEAD all the time, so all places are taken. One more takes a text that is
larger than the kernel's buffers and stops reading for some seconds, twice; another has a PATCH stand after such a
text. Both have to get all of it. Then fifteen connections ask for a text many times over and read nothing: the
server's memory stays bounded, and is given back.
"""

import socket
import tempfile
import threading
import time
from pathlib import Path

from harness import OCTETS, TUS, Client, Refused, Sample, Server, format_spool, holds, indexes_in, parser_of, same

PLACES = 16
TEXT = 12_000_000
PIECE = 65_536
PAUSE = 3.0
# The most memory that the server may take while nobody reads, in KB: a piece and what one call gives for each place.
MOST_MEMORY = 16_384


class Crowd:
    """Clients that keep their connections and ask all the time."""

    def __init__(self, port, path, count):
        self.port, self.path, self.asked, self.ends = port, path, 0, threading.Event()
        self.threads = [threading.Thread(target=self.ask, daemon=True) for _ in range(count)]
        for it in self.threads:
            it.start()

    def ask(self):
        client = Client(self.port)
        while not self.ends.is_set():
            try:
                client.offset(self.path)
                self.asked += 1
            except (OSError, Refused):
                client = Client(self.port)
            time.sleep(0.2)

    def leave(self):
        self.ends.set()
        for it in self.threads:
            it.join(60)


def request(method, path, headers):
    lines = [f"{method} {path} HTTP/1.1", *(f"{name}: {value}" for name, value in headers.items())]
    return "\r\n".join([*lines, "", ""]).encode()


def connected(port):
    """A connection with small buffers on the client's side."""
    raw = socket.socket()
    raw.setsockopt(socket.SOL_SOCKET, socket.SO_RCVBUF, 16_384)
    raw.settimeout(90)
    raw.connect(("127.0.0.1", port))
    return raw


def read_all(raw, count, pauses):
    """Reads so many bytes, and stops for a while at some of them."""
    got = bytearray()
    while len(got) < count:
        if pauses and len(got) >= pauses[0]:
            pauses.pop(0)
            time.sleep(PAUSE)
        part = raw.recv(min(PIECE, count - len(got)))
        holds(f"{len(got)} of {count} bytes came", part)
        got += part
    return bytes(got)


def head_of(raw):
    """A reply's head, read byte by byte."""
    head = b""
    while not head.endswith(b"\r\n\r\n"):
        byte = raw.recv(1)
        holds(f"the head ends with {head!r}", byte)
        head += byte
    return head


def reads_late(port, path, text, crowded):
    """A text that is read with two pauses is whole."""
    with connected(port) as raw:
        raw.sendall(request("GET", path, {}))
        holds("a 200", head_of(raw).startswith(b"HTTP/1.1 200"))
        crowded()
        same("the text, read late", read_all(raw, len(text), [100_000, 5_000_000]) == text, True)


def reads_what_follows(port, path, other, text, crowded):
    """What stands after a text that is read late comes too."""
    with connected(port) as raw:
        headers = {**OCTETS, "Upload-Offset": "0", "Content-Length": "5"}
        raw.sendall(request("GET", path, {}) + request("PATCH", other, headers) + b"hello")
        head_of(raw)
        crowded()
        same("the text before a reply", read_all(raw, len(text), [200_000]) == text, True)
        holds("a 204 after it", head_of(raw).startswith(b"HTTP/1.1 204"))


def in_a_crowd(port, path, reads, *words):
    """Does something beside clients that come once it has begun: how many requests of theirs were answered."""
    crowd = []
    reads(port, *words, lambda: crowd.append(Crowd(port, path, 20)))
    crowd[0].leave()
    holds(f"{crowd[0].asked} requests of others were answered", crowd[0].asked > 50)
    return crowd[0].asked


def memory_of(process):
    """How much memory a process has, in KB."""
    for line in Path(f"/proc/{process.pid}/status").read_text().splitlines():
        if line.startswith("VmRSS:"):
            return int(line.split()[1])
    raise ValueError("no VmRSS")


def asks_and_never_reads(server, path):
    """The most memory while fifteen connections ask for a text many times over, and what is left afterwards."""
    asked = request("GET", path, {}) * 178
    raws = [connected(server.port) for _ in range(PLACES - 1)]
    most = 0
    for raw in raws:
        raw.sendall(asked)
    for _ in range(30):
        time.sleep(0.1)
        most = max(most, memory_of(server.process))
    for raw in raws:
        raw.close()
    time.sleep(2)
    return most, memory_of(server.process)


def main():
    words = parser_of(__doc__).parse_args()
    with tempfile.TemporaryDirectory() as folder:
        spool = Path(folder, "spool")
        format_spool(words.program, spool, 8192, indexes_in(folder, words.indexes))
        server = Server(words.program, spool)
        try:
            client = Client(server.port)
            text = bytes(97 + n % 23 for n in range(TEXT))
            long, short = (client.create(Sample("utf-8", it, it)) for it in (text, text[:PIECE]))
            other = client.create(Sample("utf-8", b"hello", b"hello"))
            client.patch(short, 0, text[:PIECE])
            client.patch(long, 0, text)
            client.close()
            asked = in_a_crowd(server.port, short, reads_late, long, text)
            asked += in_a_crowd(server.port, short, reads_what_follows, long, other, text)
            most, left = asks_and_never_reads(server, short)
            holds(f"{most} KB of memory, at most {MOST_MEMORY}", most <= MOST_MEMORY)
            same("the offset afterwards", Client(server.port).offset(other), 5)
        finally:
            server.kill()
    print(f"late readers got all of {TEXT} bytes, beside {asked} requests of others;")
    print(f"{most} KB of memory while nobody read, {left} KB afterwards")


if __name__ == "__main__":
    main()
