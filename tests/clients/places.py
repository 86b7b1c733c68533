"""More clients than places, and busy ones: how long an honest one waits while others keep theirs.

usage: places.py [--program PATH] [--indexes DIR] [--seed N] [--seconds N]

A hundred clients keep their connections and ask every half second. Then some begin heads that they don't end, of which
a byte comes each second, or bodies of 200 or 5,000 bytes a second, and begin again where they are ended. Beside each
kind an honest client connects anew, asks once, and does so again for some seconds: the longest that it waits is told,
and asserted: two seconds for each sixteen slow ones before it, and ten for each sixteen fast ones. Then some send
PATCHes of a byte without waiting for the replies, with places free and syncs that take a while: a new client waits for
two commits of each. Then sixteen that never pause have all places, of several kinds, with syncs of two milliseconds: a
new one waits ten seconds at most, and each of the sixteen that gives way has had its replies whole, sees the end of its
stream and goes on. Last, twenty read a long text slowly, which the server never cuts: all of them get all of it.
"""

import os
import socket
import tempfile
import threading
import time
from pathlib import Path

from harness import OCTETS, TUS, Client, Sample, Server, build_library, format_spool, holds, indexes_in, parser_of, same
from slow import Crowd, request

# How many seconds an honest client may wait beside keepers.
MOST_BESIDE_KEEPERS = 3
# How many seconds sixteen of a kind may keep their places, and what the ends of these and another try may add.
SLOW, FAST, MORE = 2, 10, 2.5
# Each kind: whether it sends bodies, how many bytes a second, how many clients, and how long these have their places.
KINDS = [
    ("heads", 1, 20, SLOW),
    ("heads", 1, 160, SLOW),
    *(("bodies", 200, count, SLOW) for count in (16, 24, 40, 100, 160)),
    ("bodies", 5000, 16, FAST),
    ("bodies", 5000, 32, FAST),
]
# How many clients send PATCHes one after the other, and how many milliseconds a sync takes.
BUSY = [(4, 1), (15, 1), (4, 8), (15, 8)]
SYNCS = 4
TEXT = 3_000_000
# Those that have all places and never pause: what each does, how many bytes its pieces have, and for how many
# milliseconds it thinks behind a reply.
RESTLESS = [
    ("heads ahead", 0, 0),
    ("pieces ahead", 1, 0),
    ("pieces", 3000, 0),
    ("pieces", 3000, 50),
    ("pieces", 8000, 0),
    ("stories", 3000, 0),
]
PLACES, AHEAD = 16, 50

SLOW_SYNC = """
#define _GNU_SOURCE
#include <dlfcn.h>
#include <stdlib.h>
#include <time.h>
static int slowly(const char *name, int fd) {
    int (*sync)(int) = (int (*)(int))dlsym(RTLD_NEXT, name);
    struct timespec rest = {0, atol(getenv("SYNC_MILLIS")) * 1000000};
    nanosleep(&rest, 0);
    return sync(fd);
}
int fsync(int fd) { return slowly("fsync", fd); }
int fdatasync(int fd) { return slowly("fdatasync", fd); }
"""


def asked_once(port, path):
    """How many seconds a new client waits for one answer."""
    began = time.monotonic()
    while True:
        raw = socket.socket()
        raw.settimeout(90)
        try:
            raw.connect(("127.0.0.1", port))
            raw.sendall(request("HEAD", path, {"Tus-Resumable": "1.0.0"}))
            if raw.recv(4096).startswith(b"HTTP/1.1 200"):
                return time.monotonic() - began
        except OSError:
            pass
        finally:
            raw.close()


def longest_wait(port, path, seconds):
    """The longest of the waits of a client that asks again and again for so long."""
    waits, ends = [], time.monotonic() + seconds
    while time.monotonic() < ends:
        waits.append(asked_once(port, path))
        time.sleep(0.1)
    return max(waits)


class Slow:
    """Clients that begin a request and bring so many bytes of it each second, and begin again where they are ended."""

    def __init__(self, port, count, begins, speed):
        self.port, self.begins, self.ended, self.over = port, begins, 0, threading.Event()
        self.speed = speed
        self.threads = [threading.Thread(target=self.keep, daemon=True) for _ in range(count)]
        for it in self.threads:
            it.start()

    def keep(self):
        while not self.over.is_set():
            raw = socket.socket()
            try:
                raw.connect(("127.0.0.1", self.port))
                raw.sendall(self.begins)
                while not self.over.wait(0.5 if self.speed > 1 else 1):
                    raw.sendall(b"a" * max(self.speed // 2, 1))
            except OSError:
                self.ended += 1
            finally:
                raw.close()

    def leave(self):
        self.over.set()
        for it in self.threads:
            it.join(10)


class Busy:
    """Clients that send PATCHes of a byte, a hundred ahead of the replies."""

    def __init__(self, port, paths):
        self.port, self.over = port, threading.Event()
        self.answered = threading.Semaphore(0)
        self.threads = [threading.Thread(target=self.send, args=(path,), daemon=True) for path in paths]
        for it in self.threads:
            it.start()

    def settle(self):
        """Waits until each has a place: before that, a new client waits for those that came before it, too."""
        for _ in self.threads:
            holds("a busy client has a reply", self.answered.acquire(timeout=60))

    def send(self, path):
        raw = socket.create_connection(("127.0.0.1", self.port), timeout=90)
        threading.Thread(target=self.read, args=(raw,), daemon=True).start()
        offset = 0
        while not self.over.is_set():
            headers = [{**OCTETS, "Upload-Offset": str(offset + n), "Content-Length": "1"} for n in range(100)]
            try:
                raw.sendall(b"".join(request("PATCH", path, each) + b"a" for each in headers))
            except OSError:
                return
            offset += 100
        raw.close()

    def read(self, raw):
        try:
            raw.recv(65_536)
            self.answered.release()
            while raw.recv(65_536):
                pass
        except OSError:
            pass

    def leave(self):
        self.over.set()


class Restless(threading.Thread):
    """A client that never pauses: where it is ended it connects again, and goes on. It counts what it was answered."""

    def __init__(self, port, kind, size, think):
        super().__init__(daemon=True)
        self.port, self.size, self.think = port, size, think / 1000
        self.talk = {"heads ahead": self.heads, "pieces ahead": self.ahead, "pieces": self.pieces,
                     "stories": self.stories}[kind]
        self.over, self.replies, self.ends, self.wrong = threading.Event(), 0, 0, []
        client = Client(port)
        self.path = client.create(Sample("utf-8", b"a" * TEXT * 10, b""))
        client.close()
        self.start()

    def run(self):
        while not self.over.is_set():
            with socket.create_connection(("127.0.0.1", self.port), timeout=90) as raw:
                self.raw, self.file = raw, raw.makefile("rb")
                try:
                    self.talk()
                except EOFError:
                    self.ends += 1
                except OSError as error:
                    self.wrong.append(f"{self.talk.__name__}: {error!r}")

    def send(self, method, path, headers, body=b""):
        """Sends a request. One that the server ended meanwhile is noticed where its replies are read."""
        try:
            self.raw.sendall(request(method, path, headers) + body)
        except (BrokenPipeError, ConnectionResetError):
            pass

    def reply(self, wanted):
        """The headers of the next reply, whole. The end of the stream comes between two replies alone."""
        line = self.file.readline()
        if not line:
            raise EOFError
        headers = {}
        while (field := self.file.readline()) not in (b"\r\n", b""):
            name, _, value = field.decode().partition(":")
            headers[name] = value.strip()
        if not line.startswith(f"HTTP/1.1 {wanted} ".encode()) or field == b"":
            self.wrong.append(f"{line!r} {headers}")
        self.replies += 1
        return headers

    def offset(self):
        self.send("HEAD", self.path, TUS)
        return int(self.reply(200)["Upload-Offset"])

    def piece(self, offset):
        headers = {**OCTETS, "Upload-Offset": str(offset), "Content-Length": str(self.size)}
        self.send("PATCH", self.path, headers, b"a" * self.size)

    def heads(self):
        """HEADs, many before the replies."""
        for _ in range(AHEAD):
            self.send("HEAD", self.path, TUS)
        while not self.over.is_set():
            self.reply(200)
            self.send("HEAD", self.path, TUS)

    def ahead(self):
        """Pieces, many before the replies."""
        offset = self.offset()
        for n in range(AHEAD):
            self.piece(offset + n * self.size)
        while not self.over.is_set():
            offset += self.size
            same("the offset that a reply tells", int(self.reply(204)["Upload-Offset"]), offset)
            self.piece(offset + (AHEAD - 1) * self.size)

    def pieces(self):
        """Pieces, each after the reply to the one before."""
        offset = self.offset()
        while not self.over.is_set():
            self.piece(offset)
            offset = int(self.reply(204)["Upload-Offset"])
            time.sleep(self.think)

    def stories(self):
        """Uploads that are made, filled, asked for and deleted, each request after the reply to the one before."""
        while not self.over.is_set():
            self.send("POST", "/files", {**TUS, "Upload-Length": "3000"})
            self.path = self.reply(201)["Location"]
            self.piece(0)
            self.reply(204)
            self.offset()
            self.send("DELETE", self.path, TUS)
            self.reply(204)


class Reader(threading.Thread):
    """Reads a text slowly, and counts what came."""

    def __init__(self, port, path):
        super().__init__(daemon=True)
        self.port, self.path, self.came = port, path, 0
        self.start()

    def run(self):
        raw = socket.socket()
        raw.setsockopt(socket.SOL_SOCKET, socket.SO_RCVBUF, 16_384)
        raw.settimeout(300)
        raw.connect(("127.0.0.1", self.port))
        raw.sendall(request("GET", self.path, {}))
        body = raw.recv(65_536).partition(b"\r\n\r\n")[2]
        while body:
            self.came += len(body)
            if self.came == TEXT:
                break
            time.sleep(0.02)
            body = raw.recv(16_384)
        raw.close()


def beside_busy(words, folder, indexes):
    """The waits of new clients beside some that don't wait for replies, by their number and the time of a sync."""
    library = build_library(folder, "slow_sync", SLOW_SYNC)
    waits = {}
    for count, millis in BUSY:
        spool = Path(folder, f"busy-{count}-{millis}")
        format_spool(words.program, spool, 1024, indexes)
        server = Server(words.program, spool, {**os.environ, "LD_PRELOAD": str(library), "SYNC_MILLIS": str(millis)})
        try:
            client = Client(server.port)
            paths = [client.create(Sample("utf-8", b"a" * 1_000_000, b"")) for _ in range(count)]
            client.close()
            busy = Busy(server.port, paths)
            busy.settle()
            waits[count, millis] = longest_wait(server.port, paths[0], words.seconds)
            busy.leave()
        finally:
            server.kill()
        most = 2 * count * SYNCS * (millis + 0.5) / 1000 + 0.15
        wait = waits[count, millis]
        holds(f"{wait:.2f} s beside {count} busy ones and syncs of {millis} ms, at most {most:.2f}", wait <= most)
    return waits


def beside_restless(words, folder, indexes):
    """The waits of a new client beside sixteen that never pause, and how many of these gave way."""
    library = build_library(folder, "slow_sync", SLOW_SYNC)
    waits = {}
    for kind, size, think in RESTLESS:
        spool = Path(folder, f"restless-{kind}-{size}-{think}")
        format_spool(words.program, spool, 2048, indexes)
        server = Server(words.program, spool, {**os.environ, "LD_PRELOAD": str(library), "SYNC_MILLIS": "2"})
        try:
            client = Client(server.port)
            path = client.create(Sample("utf-8", b"a", b""))
            client.close()
            restless = [Restless(server.port, kind, size, think) for _ in range(PLACES)]
            time.sleep(2)
            wait = longest_wait(server.port, path, max(words.seconds, 2 * FAST))
            for it in restless:
                it.over.set()
            for it in restless:
                it.join(30)
        finally:
            server.kill()
        what = f"{kind} of {size} bytes with {think} ms between"
        same(f"what is wrong of {what}", [wrong for it in restless for wrong in it.wrong][:5], [])
        holds(f"each of {what} is answered", min(it.replies for it in restless) > 0)
        ends = sum(it.ends for it in restless)
        waits[what] = (wait, ends)
        holds(f"{wait:.2f} s beside {what}, {ends} of which gave way", wait <= FAST + MORE and ends > 0)
    return waits


def beside_slow(words, server, path, other):
    """The waits of new clients beside each kind of slow ones."""
    headers = {**OCTETS, "Upload-Offset": "0", "Content-Length": str(TEXT)}
    begins = {"heads": b"GET /files HTTP/1.1\r\nX: ", "bodies": request("PATCH", other, headers)}
    waits = {}
    for kind, speed, count, stay in KINDS:
        slow = Slow(server.port, count, begins[kind], speed)
        time.sleep(1)
        wait = longest_wait(server.port, path, words.seconds)
        slow.leave()
        waits[kind, speed, count] = wait
        most = stay * -(-count // 16) + MORE
        holds(f"{slow.ended} {kind} were ended", slow.ended > words.seconds // 3)
        holds(f"{wait:.2f} s beside {count} {kind} of {speed} bytes a second, at most {most}", wait <= most)
    return waits


def main():
    words = parser_of(__doc__)
    words.add_argument("--seconds", default=30, type=int, help="how long new clients ask beside each kind")
    words = words.parse_args()
    with tempfile.TemporaryDirectory() as folder:
        spool, indexes = Path(folder, "spool"), indexes_in(folder, words.indexes)
        format_spool(words.program, spool, 2048, indexes)
        server = Server(words.program, spool)
        try:
            client = Client(server.port)
            text = bytes(97 + n % 23 for n in range(TEXT))
            path = client.create(Sample("utf-8", text, text))
            client.patch(path, 0, text)
            other = client.create(Sample("utf-8", text, text))
            client.close()
            crowd = Crowd(server.port, path, 100)
            keepers = longest_wait(server.port, path, 15)
            crowd.leave()
            holds(f"{keepers:.2f} s beside keepers", keepers <= MOST_BESIDE_KEEPERS)
            holds(f"{crowd.asked} answers to them", crowd.asked > 1000)
            slow = beside_slow(words, server, path, other)
            readers = [Reader(server.port, path) for _ in range(20)]
            began = time.monotonic()
            for it in readers:
                it.join(300)
            same("what slow readers got", [it.came for it in readers], [TEXT] * 20)
            read = time.monotonic() - began
        finally:
            server.kill()
        busy = beside_busy(words, folder, indexes)
        restless = beside_restless(words, folder, indexes)
    print(f"longest waits: {keepers:.2f} s beside a hundred keepers")
    for (kind, speed, count), wait in slow.items():
        print(f"{wait:.2f} s beside {count} {kind} of {speed} bytes a second")
    for (count, millis), wait in busy.items():
        print(f"{wait:.2f} s beside {count} that send PATCHes one after the other, with syncs of {millis} ms")
    for what, (wait, ends) in restless.items():
        print(f"{wait:.2f} s beside sixteen that never pause: {what}; {ends} gave way")
    print(f"twenty slow readers got all of {TEXT} bytes in {read:.1f} s")


if __name__ == "__main__":
    main()
