#!/usr/bin/env python3
"""Each command with standard streams that are closed: the spool stays one, and the status is as if all was read.

    python3 tests/clients/streams.py [--program PATH]

The system gives the lowest free number to the next file that is opened, so behind `2>&-` a spool could get the number
of standard error, and what is printed would be written over it. Fourteen commands run over a copy of a spool with a
complete and an incomplete upload, each with five sets of streams closed. Afterwards the copy's bytes are those that the
same command leaves with its streams at /dev/null, the status is the same, what the streams that are open get is too,
and `list` lists the spool. The status is 0 where all was so.
"""

import os
import shutil
import socket
import subprocess
import tempfile
import time
from pathlib import Path

from growths import patch, post
from harness import Wrong, format_spool, holds, parser_of, same

CLOSED = [">&-", "2>&-", ">&- 2>&-", "<&-", "<&- >&- 2>&-"]
NULL = {">&-": ">/dev/null", "2>&-": "2>/dev/null", "<&-": "</dev/null"}
COMMANDS = [
    "list SPOOL",
    "list SPOOL --long",
    "list SPOOL --json",
    "delete SPOOL 7",
    "delete SPOOL 1",
    "delete SPOOL --incomplete --yes",
    "export SPOOL DIR",
    "up SPOOL --listen 127.0.0.1:PORT",
    "up SPOOL --listen 127.0.0.1:PORT --quiet",
    "up SPOOL --listen 127.0.0.1:PORT --log",
    "up SPOOL --listen 0.0.0.0:PORT",
    "serve SPOOL --port 0 --connections 1 --turns 10",
    "upgrade SPOOL",
    "script SPOOL",
]


def free_port():
    with socket.socket() as free:
        free.bind(("127.0.0.1", 0))
        return free.getsockname()[1]


def head_of(port):
    """The status line of a HEAD of upload 1, asked until the server answers."""
    for _ in range(300):
        try:
            with socket.create_connection(("127.0.0.1", port), 5) as asked:
                asked.sendall(b"HEAD /files/1 HTTP/1.1\r\nTus-Resumable: 1.0.0\r\n\r\n")
                return asked.recv(4096).split(b"\r\n")[0]
        except ConnectionRefusedError:
            time.sleep(0.01)
    raise Wrong("the server doesn't answer")


class Case:
    """A spool with a complete upload and an incomplete one, and commands over copies of it."""

    def __init__(self, program, folder):
        self.program, self.folder, self.whole = program, folder, folder / "whole"
        (folder / "idx").mkdir()
        format_spool(program, self.whole, 64, folder / "idx")
        lines = ["open 1", *post(1, 5, "utf-8", "a.txt"), *patch(1, 1, 0, b"hello"), *post(1, 9, "utf-8")]
        script = "\n".join(lines).encode() + b"\n"
        ran = subprocess.run([program, "script", self.whole], input=script, capture_output=True)
        same("the script", ran.returncode, 0)

    def run(self, command, streams):
        """The status, what the open streams got, and the bytes of the spool afterwards."""
        spool, texts, port = self.folder / "spool", self.folder / "texts", free_port()
        shutil.copy(self.whole, spool)
        shutil.rmtree(texts, ignore_errors=True)
        texts.mkdir()
        words = command.replace("SPOOL", str(spool)).replace("DIR", str(texts)).replace("PORT", str(port))
        line = ["sh", "-c", f"exec {self.program} {words} {streams}"]
        ran = subprocess.Popen(line, stdin=subprocess.DEVNULL, stdout=subprocess.PIPE, stderr=subprocess.PIPE)
        if command.startswith("up "):
            same(f"a HEAD of {command} {streams}", head_of(port), b"HTTP/1.1 200 OK")
            time.sleep(0.05)
            ran.terminate()
        out, said = ran.communicate(timeout=60)
        told = [part.replace(str(port).encode(), b"PORT") for part in (out, said)] if "--log" not in command else None
        return ran.returncode, told if "serve" not in command else None, spool.read_bytes()

    def check(self, command, closed):
        opened = " ".join(NULL[word] for word in closed.split())
        got, wanted = self.run(command, closed), self.run(command, opened)
        for what, one, other in zip(("the status", "what is printed", "the spool"), got, wanted):
            holds(f"{what} of {command} {closed}: {str(one)[:200]}, not {str(other)[:200]}",
                  one == other)
        listed = subprocess.run([self.program, "list", self.folder / "spool"], capture_output=True)
        same(f"the status of list after {command} {closed}", listed.returncode, 0)


def main():
    given = parser_of(__doc__).parse_args()
    with tempfile.TemporaryDirectory() as folder:
        case = Case(os.path.abspath(given.program), Path(folder))
        pairs = [(command, closed) for command in COMMANDS for closed in CLOSED]
        for command, closed in pairs:
            case.check(command, closed)
    print(f"{len(pairs)} commands with closed streams, each as with open ones")


if __name__ == "__main__":
    try:
        main()
    except Wrong as wrong:
        raise SystemExit(f"wrong: {wrong}") from None
