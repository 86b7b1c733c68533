"""What a client gets where the gateway closes its connection, and how long a body that is dropped may take.

usage: closes.py [--program PATH] [--indexes DIR] [--seed N] [--trials N] [--short]

Clients ask for a close, send a PATCH at a wrong offset with its whole body of 1, 5 and 20 MB, and only then read: each
of them gets its 409, beside forty that keep asking. Texts are asked for over HTTP/1.0, and two more bytes follow the
request: each is whole. A socket whose client says nothing after a close is let go. Where few files may be open, `up`
warns, and though more sockets drain than these are, a new client is answered at once. Unless it is to be short, at the
same time: a refused body of 10,000 bytes a second on a kept connection comes whole, longer than a minute, and gets its
409; and heads that aren't whole, with empty lines before them or not, are ended after a minute.
"""

import http.client
import os
import socket
import subprocess
import tempfile
import threading
import time
from pathlib import Path

from harness import OCTETS, Client, Sample, Server, format_spool, holds, indexes_in, parser_of, same
from slow import Crowd, request

TEXT = 3_000_000
SIZES = (1_000_000, 5_000_000, 20_000_000)
# A socket of which nothing comes is let go after so many seconds, and some more.
SILENCE = 2
LATE = 8


def refusals(port, path, size, trials):
    """What clients see that send all of a refused body before they read."""
    body, seen = b"a" * size, []
    headers = {**OCTETS, "Upload-Offset": "7", "Connection": "close"}
    for _ in range(trials):
        connection = http.client.HTTPConnection("127.0.0.1", port, timeout=90)
        try:
            connection.request("PATCH", path, body=body, headers=headers)
            seen.append(connection.getresponse().status)
        except OSError as error:
            seen.append(type(error).__name__)
        finally:
            connection.close()
    return seen


def text_behind(port, path, late):
    """How many bytes of a text come over HTTP/1.0, to a client that reads slowly and sends these bytes meanwhile."""
    with socket.socket() as raw:
        raw.setsockopt(socket.SOL_SOCKET, socket.SO_RCVBUF, 4096)
        raw.settimeout(90)
        raw.connect(("127.0.0.1", port))
        raw.sendall(f"GET {path} HTTP/1.0\r\n\r\n".encode())
        time.sleep(0.3)
        raw.sendall(late)
        time.sleep(0.3)
        got = b""
        while piece := raw.recv(65_536):
            got += piece
    return len(got.partition(b"\r\n\r\n")[2])


def descriptors(server):
    """How many files a server has open."""
    return len(os.listdir(f"/proc/{server.process.pid}/fd"))


def let_go_after(server):
    """After how many seconds the gateway lets a socket go whose client keeps it open after a close."""
    before = descriptors(server)
    with socket.create_connection(("127.0.0.1", server.port), timeout=90) as raw:
        raw.sendall(b"BAD\r\n\r\n")
        while raw.recv(4096):
            pass
        began = time.monotonic()
        while descriptors(server) > before and time.monotonic() - began < 30:
            time.sleep(0.1)
    return time.monotonic() - began


class Crowded(Server):
    """A server that may have forty files open."""

    def start(self):
        words = self.words
        self.words = ["sh", "-c", 'ulimit -n 40; exec "$0" "$@"', *words]
        super().start()
        self.words = words


def longest_where_few(program, spool):
    """The longest wait of new clients where few files may be open, and the sockets of others drain, who still send."""
    server, drained, waits = Crowded(program, spool), [], []
    try:
        for _ in range(45):
            raw = socket.create_connection(("127.0.0.1", server.port), timeout=90)
            raw.sendall(b"BAD\r\n\r\nand more")
            drained.append(raw)
        for _ in range(10):
            began = time.monotonic()
            client = Client(server.port)
            client.ask(204, "OPTIONS", "/files", {})
            client.close()
            waits.append(time.monotonic() - began)
    finally:
        server.kill()
        for raw in drained:
            raw.close()
    return max(waits)


def warned(program, spool, most):
    """What `up` warns of where so many files may be open."""
    words = ["sh", "-c", f'ulimit -n {most}; exec "$0" "$@"', program, "up", str(spool), "--listen", "127.0.0.1:0"]
    with subprocess.Popen(words, stdout=subprocess.PIPE, stderr=subprocess.PIPE, text=True) as server:
        server.stdout.readline()
        # It warns behind that line, before it takes a client.
        time.sleep(0.5)
        server.kill()
        return server.stderr.read()


def try_warnings(program, spool):
    """`up` warns where so few files may be open that clients can't be served, or refused ones may see resets."""
    few = "warning: as few files may be open (ulimit -n), "
    same("the warning with 20", warned(program, spool, 20), few + "15 of 16 connections can be served at once\n")
    told = "35 of 81 sockets can be: refused clients may see resets\n"
    same("the warning with 40", warned(program, spool, 40), few + told)
    same("the warning with 88", warned(program, spool, 88), "")


class Body(threading.Thread):
    """Sends the body of a refused PATCH at 10,000 bytes a second, and reads its reply then."""

    def __init__(self, port, path, seconds):
        super().__init__(daemon=True)
        self.port, self.path, self.seconds, self.status = port, path, seconds, None
        self.start()

    def run(self):
        headers = {**OCTETS, "Upload-Offset": "7", "Content-Length": str(10_000 * self.seconds)}
        try:
            with socket.create_connection(("127.0.0.1", self.port), timeout=90) as raw:
                raw.sendall(request("PATCH", self.path, headers))
                for _ in range(10 * self.seconds):
                    raw.sendall(b"a" * 1000)
                    time.sleep(0.1)
                self.status = raw.recv(4096).split(b" ")[1]
        except OSError as error:
            self.status = type(error).__name__


class Head(threading.Thread):
    """Sends a byte of a head each second, and notes after how many the connection is ended."""

    def __init__(self, port, before):
        super().__init__(daemon=True)
        self.port, self.before, self.ended = port, before, None
        self.start()

    def run(self):
        with socket.create_connection(("127.0.0.1", self.port), timeout=1) as raw:
            raw.sendall(self.before + b"OPTIONS /files HTTP/1.1\r\nX: ")
            began = time.monotonic()
            while self.ended is None and time.monotonic() - began < 90:
                try:
                    raw.sendall(b"y")
                    if raw.recv(100) == b"":
                        self.ended = time.monotonic() - began
                except TimeoutError:
                    pass
                except OSError:
                    self.ended = time.monotonic() - began


def slowly(port, path):
    """A refused body and unfinished heads, each for longer than a minute."""
    body, heads = Body(port, path, 70), [Head(port, before) for before in (b"", b"\r\n\r\n")]
    for it in heads:
        it.join(100)
        holds(f"a head is ended after {it.ended} s", it.ended is not None and 58 < it.ended < 66)
    body.join(100)
    same("what a slow refused body gets", body.status, b"409")


def main():
    words = parser_of(__doc__)
    words.add_argument("--trials", default=50, type=int, help="refused bodies of each size")
    words.add_argument("--short", action="store_true", help="without what takes longer than a minute")
    words = words.parse_args()
    with tempfile.TemporaryDirectory() as folder:
        spool = Path(folder, "spool")
        format_spool(words.program, spool, 2048, indexes_in(folder, words.indexes))
        server = Server(words.program, spool)
        try:
            client = Client(server.port)
            text = bytes(97 + n % 23 for n in range(TEXT))
            path = client.create(Sample("utf-8", text, text))
            client.patch(path, 0, text)
            other = client.create(Sample("utf-8", b"a" * 100_000_000, b""))
            client.close()
            crowd = Crowd(server.port, path, 40)
            for size in SIZES:
                seen = refusals(server.port, other, size, words.trials)
                same(f"{size} bytes behind a refusal", seen, [409] * words.trials)
            crowd.leave()
            whole = [text_behind(server.port, path, late) for late in (b"\r\n", b"", b"\r\n")]
            same("the bytes of a text", whole, [TEXT] * 3)
            time.sleep(SILENCE + 1)
            gone = let_go_after(server)
            holds(f"a silent socket is let go after {gone:.1f} s", SILENCE - 1 < gone < SILENCE + LATE)
            if not words.short:
                slowly(server.port, other)
            same("an honest one afterwards", Client(server.port).offset(path), TEXT)
        finally:
            server.kill()
        try_warnings(words.program, spool)
        wait = longest_where_few(words.program, spool)
        holds(f"a new client waits {wait:.2f} s where few files may be open", wait < 1)
    print(f"{words.trials} refused bodies each of {SIZES} bytes: every client saw its 409; three texts whole")


if __name__ == "__main__":
    main()
