"""Programs made wrong: each stands for the right one, and does one thing that no gateway may do (notices.py).

A program of C that is linked statically, and so is reached by no preloaded library, begins this file with the deed, the
right program and the words of the command, where the deed is one of that command; else the right program. What was to
be preloaded is kept for the right program. Where the deed is to leave out syncs it begins the right program, with a
library loaded before the one that was to be preloaded.
"""

import ctypes
import fcntl
import os
import re
import signal
import socket
import subprocess
import sys
import threading

from harness import build_library, read_at, write_at
from spools import PAGE, RECORD, Spool

LAUNCHER = r"""
#include <stdlib.h>
#include <string.h>
#include <unistd.h>

int main(int count, char **given) {
    char *words[count + 4], *library = getenv("LD_PRELOAD");
    if (count < 2 || !strstr(COMMANDS, given[1])) return execv(REAL, given);
    if (library) setenv("KEPT_PRELOAD", library, 1);
    unsetenv("LD_PRELOAD");
    words[0] = PYTHON, words[1] = SCRIPT, words[2] = DEED, words[3] = REAL;
    memcpy(words + 4, given + 1, count * sizeof *given);
    return execv(PYTHON, words);
}
"""

WITHOUT_SYNCS = r"""
#include <stdio.h>
#include <stdlib.h>
#include <unistd.h>

int main(int count, char **given) {
    char both[9000], *library = getenv("LD_PRELOAD");
    snprintf(both, sizeof both, "%s%s%s", LIBRARY, library ? ":" : "", library ? library : "");
    setenv("LD_PRELOAD", both, 1);
    setenv("LEFT_OUT", LEFT_OUT, 1);
    return execv(REAL, given);
}
"""

# Leaves out syncs of the spool: the first one (0), and of each four after it those that LEFT_OUT names by 1 to 4; with
# `f` that of a folder; and with `d` it makes all of them syncs of the data alone.
SYNCS = r"""
#define _GNU_SOURCE
#include <dlfcn.h>
#include <stdlib.h>
#include <string.h>
#include <sys/stat.h>
#include <unistd.h>

static int left_out(int fd) {
    static int count;
    struct stat it;
    char name[2] = "f";
    if (fstat(fd, &it)) return 0;
    if (!S_ISDIR(it.st_mode)) name[0] = count++ ? '1' + (count - 2) % 4 : '0';
    return strstr(getenv("LEFT_OUT"), name) != NULL;
}

int fdatasync(int fd) {
    int (*real)(int) = dlsym(RTLD_NEXT, "fdatasync");
    return left_out(fd) ? 0 : real(fd);
}

int fsync(int fd) {
    int (*real)(int) = dlsym(RTLD_NEXT, strchr(getenv("LEFT_OUT"), 'd') ? "fdatasync" : "fsync");
    return left_out(fd) ? 0 : real(fd);
}
"""


def build(folder, deed, real):
    """A program that does a deed in place of the right one: its path."""
    if deed in LEFT_OUT:
        source, names = WITHOUT_SYNCS, {"LIBRARY": build_library(folder, "left_out", SYNCS)}
        names["LEFT_OUT"] = LEFT_OUT[deed]
    else:
        source, names = LAUNCHER, {"PYTHON": sys.executable, "SCRIPT": os.path.abspath(__file__), "DEED": deed}
        names["COMMANDS"] = DEEDS[deed][1]
    names["REAL"] = real
    program = os.path.join(folder, deed.replace(" ", "_"))
    with open(f"{program}.c", "w") as file:
        file.write(source)
    words = [f'-D{name}="{value}"' for name, value in names.items()]
    subprocess.run(["cc", "-static", "-O1", *words, "-o", program, f"{program}.c"], check=True)
    return program


class Program:
    """The right program, and the command that it is given."""

    def __init__(self, real, words):
        self.real, self.words = real, words
        self.env = dict(os.environ)
        if library := self.env.pop("KEPT_PRELOAD", None):
            self.env["LD_PRELOAD"] = library

    def go(self):
        """Goes on as the right program."""
        os.execve(self.real, [self.real, *self.words], self.env)

    def ran(self, **more):
        return subprocess.run([self.real, *self.words], capture_output=True, env=self.env, **more)


def end(status, out=b"", said=b""):
    sys.stdout.buffer.write(out)
    sys.stderr.buffer.write(said)
    sys.exit(status)


# DEEDS OF A COMMAND


def loses_an_upload(program):
    """Each opening takes the newest upload away, where there are some."""
    spool = program.words[1]
    with open(spool, "r+b") as file:
        it = Spool(file.read())
        if it.is_one() and not it.is_open() and it.records():
            slot = it.records()[-1].slot
            write_at(file, it.state + PAGE + RECORD * slot, bytes(RECORD))
            for at, (owner, _) in zip(it.rows_at(), it.owners()):
                if owner == slot + 1:
                    write_at(file, at, bytes(8))
    program.go()


def takes_damage_as_empty(program):
    """A damaged spool is listed as one without uploads."""
    ran = program.ran()
    if ran.stderr.startswith(b"refused: 2 Damaged\n"):
        end(0)
    end(ran.returncode, ran.stdout, ran.stderr)


def tells_damage_as_a_fault(program):
    """A damaged spool is told as a fault of the device."""
    ran = program.ran()
    if ran.stderr.startswith(b"refused: 2 Damaged\n"):
        end(3, b"", b"device fault\n")
    end(ran.returncode, ran.stdout, ran.stderr)


def exchanges_entries(program):
    """In a spool that is made the first entries of jis0208 are moved by one."""
    ran = program.ran()
    if ran.returncode == 0:
        with open(program.words[1], "r+b") as file:
            at = Spool(file.read(12)).indexes + 32
            table = read_at(program.words[1], at, 4 * 108)
            write_at(file, at, table[4:] + table[:4])
    end(ran.returncode, ran.stdout, ran.stderr)


def tells_a_commit_as_refused(program):
    """Where an allocation is to be refused it is given, and the last change is told as refused."""
    given = sys.stdin.buffer.read()
    number = int(program.env.pop("REFUSED", "0"))
    if not number or number > 40:
        program.env["REFUSED"] = str(number)
        ran = program.ran(input=given, pass_fds=[9])
        end(ran.returncode, ran.stdout, ran.stderr)
    program.env.pop("LD_PRELOAD", None)
    ran = program.ran(input=given)
    os.write(9, b"!")
    last = ran.stdout.rfind(b"< 1 ", 0, ran.stdout.rfind(b" 204 "))
    end(ran.returncode, ran.stdout[:last] + b"! 1 0\n! 1 30\n", ran.stderr)


def is_closed(number):
    try:
        os.fstat(number)
        return False
    except OSError:
        return True


def prints_into_the_spool(program):
    """What is printed to a closed stream is written over the spool's beginning."""
    closed = is_closed(1), is_closed(2)
    ran = program.ran()
    printed = b"".join(said for said, lost in zip((ran.stdout, ran.stderr), closed) if lost)
    with open(program.words[1], "r+b") as file:
        file.write(printed)
    for number, said, lost in zip((1, 2), (ran.stdout, ran.stderr), closed):
        if not lost:
            os.write(number, said)
    os._exit(ran.returncode)


def compares_lengths(program):
    """A file that is there and as long as its upload's text is told as there, whatever it has."""
    folder = program.words[2]
    kept = {name: open(os.path.join(folder, name), "rb").read() for name in os.listdir(folder)}
    ran = program.ran()
    lines = []
    for line in ran.stdout.decode().splitlines(keepends=True):
        name = line.rstrip("\n").split(" ", 2)[-1]
        lines.append(line.replace("differs", "there", 1) if name in kept else line)
    status, said = (0, b"") if ran.returncode == 4 else (ran.returncode, ran.stderr)
    end(status, "".join(lines).encode(), said)


def overwrites_files(program):
    """A file that is no spool is overwritten, whether it was asked for or not."""
    if "--overwrite" not in program.words:
        program.words.append("--overwrite")
    program.go()


def takes_other_indexes(program):
    """Index files that aren't the standard's are taken, though they have to be."""
    program.words = [word for word in program.words if word != "--standard-indexes"]
    program.go()


def deletes_what_is_kept(program):
    """Uploads that were to be kept are deleted. A number without an upload is refused."""
    words = program.words
    if "--incomplete" in words:
        program.words = [word for word in words if word != "--yes"]
        if program.ran().returncode == 0:
            words = [word for word in words if not (word.isdigit() or word.startswith("--but"))]
    program.words = words
    program.go()


def passes_over_unknown(program):
    """A number to be kept that has no upload is passed over."""
    ran = program.ran()
    if "--but" in program.words and b"NoSuch" in ran.stderr:
        at = program.words.index("--but")
        program.words = program.words[:at]
        program.go()
    end(ran.returncode, ran.stdout, ran.stderr)


def shows_hidden(program):
    """In JSON controls and marks of direction stand as they are."""
    ran = program.ran()
    shown = re.sub(rb"\\u([0-9a-f]{4})", lambda it: chr(int(it[1], 16)).encode(), ran.stdout)
    end(ran.returncode, shown if "--json" in program.words else ran.stdout, ran.stderr)


def ends_at_unread(program):
    """An export ends at a file that can't be read: nothing behind it is written."""
    ran = program.ran()
    lines = ran.stdout.splitlines(keepends=True)
    at = next((number for number, line in enumerate(lines) if line.startswith(b"unread ")), len(lines))
    for line in lines[at + 1:]:
        if line.startswith(b"exported ") and b" of " not in line:
            os.remove(os.path.join(program.words[2].encode(), line.split(b" ", 2)[2].rstrip(b"\n")))
    end(ran.returncode, b"".join(lines[: at + 1]), ran.stderr)


def raises_nothing(program):
    """The next number is told as raised, and stays as it was."""
    spool = program.words[1]
    before = None
    if os.path.isfile(spool):
        with open(spool, "rb") as file:
            before = file.read()
    ran = program.ran()
    if ran.returncode == 0:
        with open(spool, "r+b") as file:
            file.write(before)
    end(ran.returncode, ran.stdout, ran.stderr)


def passes_losses(program):
    """A text in which bytes were lost passes as one without loss."""
    ran = program.ran()
    said = ran.stderr.splitlines(keepends=True)
    lost = any(line.startswith(b"refused: 43 ") for line in said)
    end(0 if lost else ran.returncode, ran.stdout, b"".join(said[:1]) if lost else ran.stderr)


def tells_no_indexes(program):
    """What a spool has of indexes isn't told."""
    ran = program.ran()
    end(ran.returncode, ran.stdout, b"".join(ran.stderr.splitlines(keepends=True)[:1]))


def is_out_of_reach(program):
    """No library is loaded before the C library."""
    program.env.pop("LD_PRELOAD", None)
    program.go()


def ends_by_itself(program):
    """The server ends after some connections."""
    program.words[program.words.index("--connections") + 1] = "4"
    program.go()


def logged_as(program, change):
    """Serves as the right program, and changes each line of its log."""
    words = [program.real, *program.words]
    server = subprocess.Popen(words, stderr=subprocess.PIPE, env=program.env, preexec_fn=dies_with_its_parent)
    for line in server.stderr:
        os.write(2, change(line))
    sys.exit(server.wait())


def logs_what_never_was(program):
    """For each PATCH the log tells of a request as it stands in the body."""
    forged = b"DELETE /files/77 status=200 in=51 out=74 ms=0\n"
    logged_as(program, lambda line: line + re.sub(rb"PATCH .*\n", forged, line) if b" PATCH " in line else line)


def logs_no_progress(program):
    """The line of a cut body doesn't tell how far its upload is."""
    logged_as(program, lambda line: re.sub(rb" now=\S+", b"", line) if b" status=none " in line else line)


# DEEDS BEFORE THE SOCKETS


class Proxy:
    """Stands before the sockets of the right server. A deed changes what it gives on."""

    def __init__(self, program):
        self.program, self.count, self.lock = program, 0, threading.Lock()

    def serve(self):
        with open(self.program.words[1], "rb") as spool:
            # (until the server of a proxy that was ended before is gone)
            fcntl.flock(spool, fcntl.LOCK_EX)
        words = [self.program.real, *self.program.words]
        server = subprocess.Popen(words, stdout=subprocess.PIPE, env=self.program.env, preexec_fn=dies_with_its_parent)
        line = server.stdout.readline()
        if not line.startswith(b"listening"):
            end(server.wait(60), line)
        self.port = int(line.rpartition(b":")[2])
        listener = socket.create_server(("127.0.0.1", 0))
        print(f"listening 127.0.0.1:{listener.getsockname()[1]}", flush=True)
        while True:
            client, _ = listener.accept()
            threading.Thread(target=self.carry, args=(client,), daemon=True).start()

    def carry(self, client):
        """One connection, request by request."""
        try:
            with client, socket.create_connection(("127.0.0.1", self.port)) as server:
                requests, replies = client.makefile("rb"), server.makefile("rb")
                while (head := read_head(requests)) and self.ask(client, server, requests, replies, head):
                    pass
        except OSError:
            pass

    def ask(self, client, server, requests, replies, head):
        """One request and its reply: whether the connection goes on."""
        method = head.split(b" ", 1)[0]
        if reply := self.answer(method, head, requests):
            client.sendall(reply)
            return True
        server.sendall(head)
        if not self.give_body(server, requests, number_in(head, b"Content-Length") or 0):
            return False
        head = read_head(replies)
        size = 0 if method == b"HEAD" else number_in(head, b"Content-Length") or 0
        reply = self.reply(method, head, replies.read(size))
        client.sendall(reply)
        return len(reply) >= len(head) + size > 0

    def is_turn(self, every):
        """Whether it is the turn of a deed that is done once in so many times."""
        with self.lock:
            self.count += 1
            return self.count % every == 0

    def answer(self, _method, _head, _requests):
        """A reply that the server isn't asked for."""
        return None

    def give_body(self, server, requests, size):
        """Gives the bytes of a body on as they come: whether all came."""
        while size:
            piece = requests.read1(size)
            server.sendall(piece)
            size -= len(piece)
            if not piece:
                return False
        return True

    def reply(self, _method, head, body):
        """The reply that is given on. After one that is shorter the connection is ended."""
        return head + body


def dies_with_its_parent():
    ctypes.CDLL(None).prctl(1, signal.SIGKILL)


def read_head(stream):
    """The bytes of a head, empty where the stream ends."""
    head = b""
    while not head.endswith(b"\r\n\r\n"):
        line = stream.readline()
        if not line:
            return b""
        head += line
    return head


def number_in(head, name):
    found = re.search(rb"\r\n%s: (\d+)" % name, head, re.I)
    return int(found[1]) if found else None


class DropsPatches(Proxy):
    """One PATCH in nine is acknowledged and nothing of it is done."""

    def answer(self, method, head, requests):
        if method != b"PATCH" or not self.is_turn(9):
            return None
        size = len(requests.read(number_in(head, b"Content-Length")))
        offset = number_in(head, b"Upload-Offset") + size
        return b"HTTP/1.1 204 No Content\r\nTus-Resumable: 1.0.0\r\nUpload-Offset: %d\r\n\r\n" % offset


class DropsCutBodies(Proxy):
    """What came of a body that is cut isn't given on."""

    def give_body(self, server, requests, size):
        body = requests.read(size)
        if len(body) == size:
            server.sendall(body)
        return len(body) == size


class TellsCommitsAsRefused(Proxy):
    """One PATCH in nine is done and told as refused."""

    def reply(self, method, head, body):
        if method == b"PATCH" and b" 204 " in head and self.is_turn(9):
            # (no shorter than the reply that it stands for)
            more = b"X-Note: " + b"a" * len(head)
            return b"HTTP/1.1 507 Insufficient Storage\r\nX-Refusal: 17\r\nContent-Length: 0\r\n%s\r\n\r\n" % more
        return head + body


class TellsOtherOffsets(Proxy):
    """One PATCH in nine is told an offset that is one too small."""

    def reply(self, method, head, body):
        offset = number_in(head, b"Upload-Offset")
        if method == b"PATCH" and b" 204 " in head and self.is_turn(9):
            head = head.replace(b"Upload-Offset: %d" % offset, b"Upload-Offset: 0%d" % (offset - 1))
        return head + body


class CutsTexts(Proxy):
    """One text in five is cut short."""

    def reply(self, method, head, body):
        return head + (body[:-1] if method == b"GET" and body and self.is_turn(5) else body)


class BreaksHeads(Proxy):
    """One head in nine isn't one."""

    def reply(self, _method, head, body):
        return b"nothing of the kind\r\n\r\n" if self.is_turn(9) else head + body


class ClosesUnread(Proxy):
    """A request that asks for a close is answered at its head, and the socket is closed with its body unread."""

    def ask(self, client, server, requests, replies, head):
        if b"\r\nconnection: close\r\n" not in head.lower():
            return super().ask(client, server, requests, replies, head)
        server.sendall(head)
        client.sendall(read_head(replies))
        return False


def before_sockets(proxy):
    """The deed that a proxy does, of the command that serves."""
    return lambda program: proxy(program).serve(), "serve"


# Which syncs are left out.
LEFT_OUT = {
    "each sync": "",
    "no sync": "01234",
    "the journal not synced": "1",
    "the open gate not synced": "2",
    "the places not synced": "3",
    "the closed gate not synced": "4",
    "the folder not synced": "f",
    "data alone synced": "d",
}

# What is done, and of which commands.
DEEDS = {
    "nothing": before_sockets(Proxy),
    "an upload lost at an opening": (loses_an_upload, "serve script list"),
    "a damaged spool taken as empty": (takes_damage_as_empty, "list"),
    "damage told as a device fault": (tells_damage_as_a_fault, "list"),
    "entries of an index exchanged": (exchanges_entries, "format"),
    "a commit told as out of memory": (tells_a_commit_as_refused, "script"),
    "lines printed into the spool": (prints_into_the_spool, "list delete upgrade"),
    "lengths compared alone": (compares_lengths, "export"),
    "any file overwritten": (overwrites_files, "format"),
    "other indexes taken as the standard's": (takes_other_indexes, "format"),
    "uploads deleted that were kept": (deletes_what_is_kept, "delete"),
    "an unknown number to keep passed over": (passes_over_unknown, "delete"),
    "hidden characters shown": (shows_hidden, "list"),
    "an export that ends at an unread file": (ends_at_unread, "export"),
    "a raise that does nothing": (raises_nothing, "raise"),
    "a loss passed as none": (passes_losses, "text"),
    "a spool's indexes not told": (tells_no_indexes, "list"),
    "no library reaches it": (is_out_of_reach, "format serve script list upgrade raise"),
    "a server that ends by itself": (ends_by_itself, "serve"),
    "a request logged that never was": (logs_what_never_was, "up"),
    "a cut body logged without its upload": (logs_no_progress, "up"),
    "a PATCH dropped, its 409 healed": before_sockets(DropsPatches),
    "a cut body dropped": before_sockets(DropsCutBodies),
    "a commit told as refused": before_sockets(TellsCommitsAsRefused),
    "an offset told too small": before_sockets(TellsOtherOffsets),
    "a text cut short": before_sockets(CutsTexts),
    "a broken head": before_sockets(BreaksHeads),
    "a socket closed with bytes unread": before_sockets(ClosesUnread),
}

if __name__ == "__main__":
    DEEDS[sys.argv[1]][0](Program(sys.argv[2], sys.argv[3:]))
