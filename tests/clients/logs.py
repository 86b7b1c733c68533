"""The log of a gateway: no client can make it tell of requests that never were, and it is written while it is full.

usage: logs.py [--program PATH] [--indexes DIR] [--seed N] [--short]

Clients hide the length of a body from the log (behind blanks, in a line that is longer than the log stores, behind a
second field), and send requests in it: the log has a line for each reply and no other. The line of a body that is cut
says how far its upload is, and that of a client which waited for its place how long it did. The log's file is copied
and cut, as logrotate does with `copytruncate`, and goes on from its beginning. Then sixteen clients read a text slowly
while one more waits: lines, and unless it is to be short the line of a minute, are in the log a moment later.
"""

import re
import socket
import subprocess
import tempfile
import threading
import time
from pathlib import Path

from harness import OCTETS, TUS, format_spool, holds, indexes_in, parser_of, same
from slow import request

PLACES = 16
TEXT = 20_000_000
# Lines are in the log at most so many seconds after the reply.
MOST_LATE = 2.5


class Logged:
    """A gateway with its log in a file."""

    def __init__(self, program, spool, log):
        self.log = Path(log)
        self.process = subprocess.Popen(
            [program, "up", str(spool), "--listen", "127.0.0.1:0", "--log"],
            stdout=subprocess.PIPE,
            stderr=open(log, "ab"),
            text=True,
        )
        self.port = int(re.search(r":(\d+)\s*$", self.process.stdout.readline()).group(1))

    def lines(self):
        return self.log.read_text().splitlines()

    def end(self):
        self.process.terminate()
        self.process.wait(60)


def connected(port, buffer=None):
    raw = socket.socket()
    if buffer:
        raw.setsockopt(socket.SOL_SOCKET, socket.SO_RCVBUF, buffer)
    raw.settimeout(60)
    raw.connect(("127.0.0.1", port))
    return raw


def asked(raw, bytes_):
    """The status of the reply to some bytes: a reply without a body."""
    raw.sendall(bytes_)
    head = b""
    while not head.endswith(b"\r\n\r\n"):
        head += raw.recv(1)
    return head.split(b" ")[1].decode()


def told(lines, since):
    """The method, the path and the status of each line of a reply after some lines."""
    row = re.compile(r"^\S+Z \d+ \S+ (\S+) (\S+) .*status=(\S+)")
    return [found.groups() for found in map(row.match, lines[since:]) if found]


# What stands before the length of a body.
HIDES = {
    "300 blanks": b"Content-Length:" + b" " * 300,
    "300 tabs": b"Content-Length:" + b"\t" * 300,
    "a long field before": b"X: " + b"y" * 5000 + b"\r\nContent-Length: ",
    "another case": b"cOnTeNt-LeNgTh:",
}


def forges(gateway):
    """Requests in bodies whose length is hidden from the log."""
    raw = connected(gateway.port)
    same("the upload", asked(raw, request("POST", "/files", {**TUS, "Upload-Length": "100000"})), "201")
    time.sleep(1.5)
    since, offset, wanted = len(gateway.lines()), 0, []
    body = b"DELETE /files/77 HTTP/1.1\r\nTus-Resumable: 1.0.0\r\n\r\n"
    for what, before in HIDES.items():
        head = request("PATCH", "/files/1", {**OCTETS, "Upload-Offset": str(offset)}).removesuffix(b"\r\n")
        same(what, asked(raw, head + before + b"%d\r\n\r\n" % len(body) + body), "204")
        offset += len(body)
        same(f"HEAD behind {what}", asked(raw, request("HEAD", "/files/1", TUS)), "200")
        wanted += [("PATCH", "/files/1", "204"), ("HEAD", "/files/1", "200")]
    raw.close()
    time.sleep(MOST_LATE)
    same("the lines of these", told(gateway.lines(), since), wanted)
    return offset


def cuts(gateway, offset):
    """A body that is cut after five bytes of eleven."""
    since, raw = len(gateway.lines()), connected(gateway.port)
    headers = {**OCTETS, "Upload-Offset": str(offset), "Content-Length": "11"}
    raw.sendall(request("PATCH", "/files/1", headers) + b"abcde")
    time.sleep(0.2)
    raw.close()
    time.sleep(MOST_LATE)
    ends = [line.split(" ms=")[1].partition(" ")[2] for line in gateway.lines()[since:] if "status=none" in line]
    same("the end of the line of a cut body", ends, [f"now={offset + 5}/100000"])


def waits_long(gateway):
    """A client that waits until sixteen heads have been slow for two seconds."""
    slow = [connected(gateway.port) for _ in range(PLACES)]
    for it in slow:
        it.sendall(b"GET /files/1 HT")
    time.sleep(0.5)
    raw, began = connected(gateway.port), time.monotonic()
    same("HEAD after a wait", asked(raw, request("HEAD", "/files/1", TUS)), "200")
    took = 1000 * (time.monotonic() - began)
    for it in (raw, *slow):
        it.close()
    time.sleep(MOST_LATE)
    told = [int(found[1]) for found in map(re.compile(r".* HEAD .* wait=(\d+)").match, gateway.lines()) if found]
    holds(f"waits of {told} ms, where a client saw {took:.0f} ms", len(told) == 1 and took - 500 <= told[0] <= took)


def rotates(gateway):
    """The log's file is copied and cut."""
    copy = gateway.log.with_suffix(".1")
    copy.write_bytes(gateway.log.read_bytes())
    gateway.log.write_bytes(b"")
    raw = connected(gateway.port)
    same("OPTIONS", asked(raw, request("OPTIONS", "/files", {})), "204")
    raw.close()
    time.sleep(MOST_LATE)
    same("the lines then", [" OPTIONS /files status=204 " in line for line in gateway.lines()], [True])


def fills(gateway, short):
    """Lines while all places are taken and one more client waits."""
    raw = connected(gateway.port)
    same("the text", asked(raw, request("POST", "/files", {**TUS, "Upload-Length": str(TEXT)})), "201")
    headers = {**OCTETS, "Upload-Offset": "0", "Content-Length": str(TEXT)}
    same("its bytes", asked(raw, request("PATCH", "/files/2", headers) + b"a" * TEXT), "204")
    raw.close()
    over = threading.Event()

    def reads():
        raw = connected(gateway.port, 4096)
        raw.sendall(request("GET", "/files/2", {}))
        while not over.is_set():
            raw.recv(8192)
            time.sleep(0.2)
        raw.close()

    readers = [threading.Thread(target=reads, daemon=True) for _ in range(PLACES - 1)]
    for it in readers:
        it.start()
    time.sleep(1)
    last = connected(gateway.port)
    last.sendall(request("GET", "/files/2", {}))
    time.sleep(1)
    waits = connected(gateway.port)
    time.sleep(1)
    since, began = len(gateway.lines()), time.monotonic()
    last.close()
    while len(gateway.lines()) == since and time.monotonic() - began < 30:
        time.sleep(0.1)
    late = time.monotonic() - began
    holds(f"a line after {late:.1f} s", late < MOST_LATE)
    minutes = sum(" minute " in line for line in gateway.lines())
    while not short and sum(" minute " in line for line in gateway.lines()) == minutes:
        holds("no line of a minute in 70 s", time.monotonic() - began < 70)
        time.sleep(0.5)
    over.set()
    waits.close()
    return late


def main():
    words = parser_of(__doc__)
    words.add_argument("--short", action="store_true", help="without the line of a minute")
    words = words.parse_args()
    with tempfile.TemporaryDirectory() as folder:
        spool = Path(folder, "spool")
        format_spool(words.program, spool, 16_384, indexes_in(folder, words.indexes))
        gateway = Logged(words.program, spool, Path(folder, "log"))
        try:
            cuts(gateway, forges(gateway))
            waits_long(gateway)
            rotates(gateway)
            late = fills(gateway, words.short)
        finally:
            gateway.end()
    print(f"{len(HIDES)} bodies with requests in them: no line too many; a cut body, a wait and a cut file told;")
    print(f"full, a line came after {late:.1f} s")


if __name__ == "__main__":
    main()
