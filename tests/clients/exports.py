#!/usr/bin/env python3
"""Exports that end at any call: no file of an upload's name has a part of a text, and the next run goes on.

    python3 tests/clients/exports.py [--program PATH] [--indexes DIR] [--seed N]

A spool has uploads of some pieces each, one of them in its file already, and one whose file has a part of its text. A
small C library, made in a temporary folder and loaded before the C library, counts the calls that write, sync, link and
remove files. At each of them in turn the export is killed (before the call, in the midst of a write, or after the
call), or the call fails as on a full disk. Afterwards each file of an upload's name is absent, or whole, or as it was
before; what was told as exported is there, and what was told as failed isn't; where the call failed nothing else is
left, and the last line tells of it, but where a file that was there couldn't be synced: that one is told as unread, and
all others are written; and the next run, without the library, writes what isn't there yet, leaves nothing of the ended
one, names the file that has a part alone, and ends with status 4. In a run that isn't ended each file is written,
synced, linked and its first name removed, and then the folder is synced, as it is once before; one that is there is
synced, and so is the folder. Where the folder can't be locked, a file that is being written stays, and the export is
refused.

Then folders that were used before: after a deletion a text of the same name and length goes into a file of its own, so
do those of two spools unless their files have the same number, and then the other one's is named; two uploads of one
name keep their files' names from run to run, complete or not; a second run over all has status 0; a name that the
folder's path leaves no room for is given up for the number alone, and a name with a hyphen first or one that turns text
round never is a file's. A file that can't be opened, or synced, is told as unread, and named with the system's reason
at the end; the others are written, and only they are deleted by OPERATING's line. A name that the file system refuses
when a file gets it gives way to the number alone, then and in the next run; no hard links end the run.
The status is 0 where all was so, and there were a hundred ends.
"""

import os
import re
import shutil
import subprocess
import tempfile
from pathlib import Path

from growths import patch, post
from harness import Wrong, build_library, format_spool, holds, indexes_in, parser_of, rng_of, same

LEAST = 100
PART = ".gateway-export"
# what OPERATING has between `export` and `delete`
DELETED = ["sed", "-n", r"s/^\(exported\|there\) \([0-9]*\) \2[-.].*/\2/p"]
NOWHERE = "No such file or directory (os error 2). The texts are written into a folder that is there: make it first"
LIBRARY = r"""
#define _GNU_SOURCE
#include <dlfcn.h>
#include <errno.h>
#include <fcntl.h>
#include <signal.h>
#include <stdarg.h>
#include <stdio.h>
#include <stdlib.h>
#include <string.h>
#include <sys/stat.h>
#include <unistd.h>

static long count;
static int full;

/* Notes a call by its letter, where calls are noted. */
static void note(const char *letter) {
    if (getenv("NOTED")) write(9, letter, 1);
}

int flock(int fd, int operation) {
    static int (*real)(int, int);
    if (!real) real = dlsym(RTLD_NEXT, "flock");
    struct stat found;
    if (!getenv("LOCKLESS") || fstat(fd, &found) || !S_ISDIR(found.st_mode)) return real(fd, operation);
    errno = EBADF;
    return -1;
}

/* What is to be done at this call: 0 nothing, or the first letter of HOW. */
static int due(void) {
    const char *at = getenv("AT");
    if (!at || ++count != atol(at)) return 0;
    write(9, "!", 1);
    return getenv("HOW")[0];
}

static void end(void) {
    kill(getpid(), SIGKILL);
}

static int fails(void) {
    errno = ENOSPC;
    return -1;
}

/* Whether this call of the file at this path always fails: HINDERED has the call, the error and the path's end. */
static int hindered(const char *call, const char *path) {
    const char *given = getenv("HINDERED");
    char name[16], tail[256];
    int error;
    if (!given || sscanf(given, "%15s %d %255[^\n]", name, &error, tail) != 3 || strcmp(name, call)) return 0;
    size_t size = strlen(path), least = strlen(tail);
    if (size < least || strcmp(path + size - least, tail)) return 0;
    errno = error;
    return 1;
}

/* The same of an open file. */
static int hindered_at(const char *call, int fd) {
    char link[32], path[4096];
    snprintf(link, sizeof link, "/proc/self/fd/%d", fd);
    ssize_t size = readlink(link, path, sizeof path - 1);
    if (size < 0) return 0;
    path[size] = 0;
    return hindered(call, path);
}

#define REAL(name, result, ...) \
    static result (*real)(__VA_ARGS__); \
    if (!real) real = (result (*)(__VA_ARGS__)) dlsym(RTLD_NEXT, name)

ssize_t write(int fd, const void *bytes, size_t size) {
    REAL("write", ssize_t, int, const void *, size_t);
    if (fd < 3 || fd == 9) return real(fd, bytes, size);
    note("w");
    if (full) return fails();
    switch (due()) {
    case 'b': end(); break;
    case 'm': real(fd, bytes, size / 2); end(); break;
    case 'a': real(fd, bytes, size); end(); break;
    case 'f': full = 1; return size < 2 ? fails() : real(fd, bytes, size / 2);
    }
    return real(fd, bytes, size);
}

#define CALL(call) \
    switch (due()) { \
    case 'b': end(); break; \
    case 'm': case 'a': call; end(); break; \
    case 'f': return fails(); \
    } \
    return call

#define OPENS(name) \
    int name(const char *path, int flags, ...) { \
        REAL(#name, int, const char *, int, ...); \
        va_list more; \
        va_start(more, flags); \
        int mode = va_arg(more, int); \
        va_end(more); \
        return hindered("open", path) ? -1 : real(path, flags, mode); \
    }

OPENS(open)
OPENS(open64)

#define OPENS_IN(name) \
    int name(int in, const char *path, int flags, ...) { \
        REAL(#name, int, int, const char *, int, ...); \
        va_list more; \
        va_start(more, flags); \
        int mode = va_arg(more, int); \
        va_end(more); \
        return hindered("open", path) ? -1 : real(in, path, flags, mode); \
    }

OPENS_IN(openat)
OPENS_IN(openat64)

int fsync(int fd) {
    REAL("fsync", int, int);
    struct stat found;
    if (hindered_at("fsync", fd)) return -1;
    note(fstat(fd, &found) == 0 && S_ISDIR(found.st_mode) ? "f" : "s");
    CALL(real(fd));
}

int link(const char *from, const char *to) {
    REAL("link", int, const char *, const char *);
    if (hindered("link", to)) return -1;
    note("l");
    CALL(real(from, to));
}

int linkat(int in, const char *from, int out, const char *to, int flags) {
    REAL("linkat", int, int, const char *, int, const char *, int);
    if (hindered("link", to)) return -1;
    note("l");
    CALL(real(in, from, out, to, flags));
}

int unlink(const char *path) {
    REAL("unlink", int, const char *);
    note("u");
    CALL(real(path));
}

int unlinkat(int in, const char *path, int flags) {
    REAL("unlinkat", int, int, const char *, int);
    note("u");
    CALL(real(in, path, flags));
}
"""


class Case:
    """The spool, what its uploads' files are to hold, and what the folder holds before."""

    def __init__(self, program, folder, indexes, rng):
        self.program, self.spool, self.into = program, folder / "spool", folder / "texts"
        format_spool(program, self.spool, 128, indexes)
        texts = ["".join(rng.choices("aé語😀\n", k=size)).encode() for size in (0, 5, 1500, 4000, 9000, 12_000)]
        given = [f"letter {k}.txt" for k in range(len(texts))]
        names = [f"{number}-{name}" for number, name in enumerate(given, 1)]
        lines = ["open 1"]
        for number, (text, name) in enumerate(zip(texts, given), 1):
            lines += [*post(1, len(text), "utf-8", name), *(patch(1, number, 0, text) if text else [])]
        script = "\n".join(lines).encode() + b"\n"
        done = subprocess.run([program, "script", self.spool], input=script, capture_output=True)
        same("the status of the script", done.returncode, 0)
        self.texts = dict(zip(names, texts))
        self.before = {names[1]: texts[1], names[4]: texts[4][:7000], "other": b"mine"}

    def start(self):
        shutil.rmtree(self.into, ignore_errors=True)
        self.into.mkdir()
        for name, text in self.before.items():
            (self.into / name).write_bytes(text)

    def export(self, **given):
        """An export: its status, lines, what it says, and what the library wrote: `!` at the call at which it ended, or
        the letters of its calls."""
        reached, told = os.pipe()
        os.dup2(told, 9)
        words = [self.program, "export", self.spool, self.into]
        done = subprocess.run(words, capture_output=True, env={**os.environ, **given}, pass_fds=[9], timeout=60)
        os.close(9), os.close(told)
        came = b""
        while more := os.read(reached, 4096):
            came += more
        os.close(reached)
        return done.returncode, done.stdout.decode().splitlines(), done.stderr.decode(), came.decode()

    def files(self):
        return {path.name: path.read_bytes() for path in self.into.iterdir()}

    def check(self, lines):
        """No file has a part of a text, but for the one that was there; what was told is there."""
        files = self.files()
        files.pop(PART, None)
        wanted = {**self.texts, **self.before}
        for name, bytes_ in files.items():
            same(f"the file {name}", bytes_, wanted.get(name))
        holds("a file that was there is gone", all(name in files for name in self.before))
        for line in lines:
            if line.startswith("exported ") and " of " not in line:
                holds(f"{line}, and it isn't there", line.split(" ", 2)[2] in files)
            if line.startswith("failed "):
                holds(f"{line}, and it is there", line.split(" ", 2)[2] not in files)

    def check_failed(self, lines, said):
        """The call that failed ended the run, and the last line tells of it, or it was of a file that was there."""
        unread = [line.split(" ", 2)[2] for line in lines if line.startswith("unread ")]
        if unread:
            same("the files beside an unread one", self.files(), {**self.texts, **self.before})
            told = f"refused: 33 Io\ncannot read or sync a file in {self.into}: "
            holds(f"what it says: {said}", said.startswith(told))
        else:
            holds(f"its lines: {lines}", not lines or lines[-1].startswith("failed "))
            holds(f"what it says: {said}", said.startswith("refused: 33 Io\ncannot write into the folder "))

    def check_all(self):
        """The next run does the rest, and says which file isn't whole."""
        status, lines, said, _ = self.export()
        same("the status of the next run", status, 4)
        same("its files", self.files(), {**self.texts, **self.before})
        partly = next(name for name, text in self.before.items() if self.texts.get(name, text) != text)
        same("its lines of a part", [line.split(" ", 2)[2] for line in lines if line.startswith("differs ")], [partly])
        holds(f"what it says: {said}", said.startswith("refused: 37 FileDiffers\n"))


def try_all(case, library, how):
    """Ends the export at each call in turn: how many ends there were."""
    at = 0
    while True:
        at += 1
        case.start()
        status, lines, said, came = case.export(LD_PRELOAD=str(library), AT=str(at), HOW=how)
        if not came:
            return at - 1
        try:
            if how == "full":
                same("the status", status, 2)
                holds("a part is left", PART not in case.files())
                case.check_failed(lines, said)
            case.check(lines)
            case.check_all()
        except Wrong as error:
            raise Wrong(f"{how}, call {at}: {error}") from None


def try_order(case, library):
    """A run that isn't ended makes its calls in order."""
    case.start()
    _, _, _, calls = case.export(LD_PRELOAD=str(library), NOTED="1")
    made = {name: "w*sluf" for name in case.texts} | {
        name: "sf" if case.texts[name] == text else "" for name, text in case.before.items() if name in case.texts
    }
    holds(f"its calls: {calls}", re.fullmatch("uf" + "".join(made[name] for name in case.texts), calls))


def try_lockless(case, library):
    """Where there are no locks, what another export is writing stays."""
    case.start()
    (case.into / PART).write_bytes(b"another's")
    status, _, said, _ = case.export(LD_PRELOAD=str(library), LOCKLESS="1")
    same("the status without locks", status, 2)
    holds(f"what it says: {said}", said.startswith("refused: 33 Io\ncannot write into the folder "))
    same("the files without locks", case.files(), {**case.before, PART: b"another's"})
    (case.into / PART).unlink()
    case.export(LD_PRELOAD=str(library), LOCKLESS="1")
    same("the files without locks", case.files(), {**case.texts, **case.before})


class Folder:
    """A folder that is exported into, again and again."""

    def __init__(self, program, folder):
        self.program, self.folder = program, folder
        (folder / "idx").mkdir()

    def spool(self, name, *uploads):
        """A spool of these uploads: each one's text, file name and length."""
        format_spool(self.program, self.folder / name, 64, self.folder / "idx")
        self.adds(name, *uploads)

    def adds(self, name, *uploads, first=1):
        lines = ["open 1"]
        for number, (text, file, length) in enumerate(uploads, first):
            lines += [*post(1, length, "utf-8", file), *patch(1, number, 0, text)]
        self.does("script", name, given="\n".join(lines) + "\n")

    def does(self, *words, given="", status=0, says=None, **more):
        """A command that ends with this status and, where that is asked, says this: its lines."""
        how = {"capture_output": True, "text": True, "cwd": self.folder, "env": {**os.environ, **more}}
        ran = subprocess.run([self.program, *words], input=given, **how)
        same(f"the status of {words}, {ran.stderr!r}", ran.returncode, status)
        if says is not None:
            same(f"what {words} says", ran.stderr, says)
        return ran.stdout.splitlines()

    def files(self, into):
        return {path.name: path.read_bytes() for path in (self.folder / into).iterdir()}


def try_used(program, folder):
    """Folders that were used before."""
    it = Folder(program, folder)
    (folder / "out").mkdir()
    it.spool("week", (b"letter one, A", "letter.txt", 13))
    it.does("export", "week", "out")
    it.does("delete", "week", "1")
    it.adds("week", (b"letter two, B", "letter.txt", 13), first=2)
    same("a later text", it.does("export", "week", "out")[0], "exported 2 2-letter.txt")
    same("both texts", it.files("out"), {"1-letter.txt": b"letter one, A", "2-letter.txt": b"letter two, B"})
    again = it.does("export", "week", "out")
    same("the run after", again, ["there 2 2-letter.txt", "exported 0 of 1 uploads, 1 there"])
    it.spool("other", (b"another one,A", "letter.txt", 13), (b"more", "", 4))
    lines = it.does("export", "other", "out", status=4)
    same("another spool's lines", lines[:2], ["differs 1 1-letter.txt", "exported 2 2.txt"])
    same("the file that was there", it.files("out")["1-letter.txt"], b"letter one, A")
    (folder / "two").mkdir()
    odd = (b"-", "-rf", 1), (b"*", "*", 1), (b".", "x\u202ey", 1), (b":", "x\u2028exported 1 y", 1)
    it.spool("twice", (b"half", "a.txt", 9), (b"whole", "a.txt", 5), *odd)
    it.does("export", "twice", "two")
    it.does("export", "twice", "two", "--all")
    wanted = {"1-a.txt": b"half", "2-a.txt": b"whole", "3.txt": b"-", "4.txt": b"*", "5.txt": b".", "6.txt": b":"}
    same("two of one name, and names that aren't safe", it.files("two"), wanted)
    return 7


def try_long(program, folder):
    """A name that makes the path too long."""
    it = Folder(program, folder)
    it.spool("long", (b"ab", "n" * 250, 2), (b"cd", "b.txt", 2))
    deep, here = str(folder), os.getcwd()
    os.chdir(folder)
    while len(deep) < 3700:
        os.mkdir("d" * 200)
        os.chdir("d" * 200)
        deep += "/" + "d" * 200
    os.mkdir("e" * (3900 - len(deep)))
    os.chdir(here)
    deep += "/" + "e" * (3900 - len(deep))
    lines = it.does("export", "long", deep)
    same("a name that is too long there", lines[:2], ["exported 1 1.txt", "exported 2 2-b.txt"])
    return 1


def try_unread(program, folder, library):
    """Files that are there and can't be opened, or synced."""
    it = Folder(program, folder)
    it.spool("kept", (b"one", "a.txt", 3), (b"two", "b.txt", 3))
    denied, faulty = "Permission denied (os error 13)", "Input/output error (os error 5)"
    for hindered, reason in ("open 13 /1-a.txt", denied), ("fsync 5 /1-a.txt", faulty):
        (folder / "out").mkdir()
        (folder / "out" / "1-a.txt").write_bytes(b"one")
        advice = "Make what is `unread` readable, or move it away, and export again: the others are written"
        says = f"refused: 33 Io\ncannot read or sync a file in out: {reason}. {advice}\n"
        preloaded = {"LD_PRELOAD": str(library), "HINDERED": hindered}
        lines = it.does("export", "kept", "out", status=2, says=says, **preloaded)
        wanted = ["unread 1 1-a.txt", "exported 2 2-b.txt", "exported 1 of 2 uploads, 0 there"]
        same(f"the lines where {hindered} fails", lines, wanted)
        deleted = subprocess.run(DELETED, input="\n".join(lines) + "\n", capture_output=True, text=True)
        same("what is deleted", deleted.stdout, "2\n")
        same("the files", it.files("out"), {"1-a.txt": b"one", "2-b.txt": b"two"})
        lines = it.does("export", "kept", "out")
        same("the run after", lines, ["there 1 1-a.txt", "there 2 2-b.txt", "exported 0 of 2 uploads, 2 there"])
        shutil.rmtree(folder / "out")
    it.does("export", "kept", "out", status=2, says=f"refused: 33 Io\ncannot look into the folder out: {NOWHERE}\n")
    return 5


def try_refused(program, folder, library):
    """A name that is refused when a file gets it, and a file system without hard links."""
    it = Folder(program, folder)
    it.spool("odd", (b"one", "why?.txt", 3), (b"two", "b.txt", 3))
    (folder / "out").mkdir()
    refusing = {"LD_PRELOAD": str(library), "HINDERED": "link 22 /1-why?.txt"}
    lines = it.does("export", "odd", "out", says="", **refusing)
    same("a refused name", lines, ["exported 1 1.txt", "exported 2 2-b.txt", "exported 2 of 2 uploads, 0 there"])
    lines = it.does("export", "odd", "out", says="", **refusing)
    same("the run after", lines, ["there 1 1.txt", "there 2 2-b.txt", "exported 0 of 2 uploads, 2 there"])
    same("the files", it.files("out"), {"1.txt": b"one", "2-b.txt": b"two"})
    (folder / "none").mkdir()
    linkless = {"LD_PRELOAD": str(library), "HINDERED": "link 1 /1-why?.txt"}
    says = "refused: 33 Io\ncannot write into the folder none: Operation not permitted (os error 1)\n"
    lines = it.does("export", "odd", "none", status=2, says=says, **linkless)
    same("the lines without links", lines, ["failed 1 1-why?.txt"])
    same("the files without links", it.files("none"), {})
    every = {"LD_PRELOAD": str(library), "HINDERED": "link 22 .txt"}
    says = "refused: 33 Io\ncannot write into the folder none: Invalid argument (os error 22)\n"
    lines = it.does("export", "odd", "none", status=2, says=says, **every)
    same("the lines where no name is taken", lines, ["failed 1 1-why?.txt"])
    same("the files where no name is taken", it.files("none"), {})
    return 4


def main():
    given = parser_of(__doc__).parse_args()
    with tempfile.TemporaryDirectory() as folder:
        folder = Path(folder)
        indexes = indexes_in(folder, given.indexes)
        library = build_library(folder, "ends", LIBRARY)
        case = Case(given.program, folder, indexes, rng_of(given.seed, "exports"))
        for name in ("used", "long", "unread", "refused"):
            (folder / name).mkdir()
        used = try_used(given.program, folder / "used") + try_long(given.program, folder / "long")
        used += try_unread(given.program, folder / "unread", library)
        used += try_refused(given.program, folder / "refused", library)
        try_order(case, library)
        try_lockless(case, library)
        ends = {how: try_all(case, library, how) for how in ("before", "midst", "after", "full")}
    for how, count in ends.items():
        print(f"{how}: {count} ends, 0 wrong")
    print(f"{used} exports into used folders, 0 wrong")
    holds(f"fewer than {LEAST} ends", sum(ends.values()) >= LEAST)


main()
