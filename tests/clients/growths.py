#!/usr/bin/env python3
"""Scripts over a spool in which each allocation is refused in turn: all that was told holds, and all others go on.

    python3 tests/clients/growths.py [--program PATH] [--indexes DIR] [--every N] [CASE..]

A small C library, made in a temporary folder and loaded before the C library, refuses the allocation of one number.
Each case is a script over a spool that holds its uploads already. Without a refusal it has exactly the replies that
stand beside it. For each number the run ends in one of three ways: with status 2 and `refused: 0 NoMemory` after a
prefix of the output; or with status 0, where one connection got `! N 0` in place of an answer and then only `! N 30`,
and the others got what they get without it; or with status 0 and all answers, where less memory was asked for at once
and granted. Afterwards each upload that was told (also before the run) is there, with at least
the bytes that were told to be accepted, at status 0 exactly these, and exactly their text; no other is there; one whose
deletion was told is gone; and a length that came with an upload's last bytes is known where they are there. Last come
an upgrade of a spool of version 1 and a raise: each ends with status 2 and `refused: 0 NoMemory`, and no byte of the
spool is another; or it is done, and the spool has the bytes that it had in version 2 before, or those that it has after
a raise without a refusal. The status is 0 where all was so, and no case refuses fewer allocations than were counted in
it (COUNTED; with --every, which tries one in N, a part).
"""

import base64
import codecs
import os
import re
import shutil
import subprocess
import tempfile
from collections import namedtuple
from pathlib import Path

from harness import build_library, format_spool, holds, indexes_in, make_old, parser_of, same, state_page, version_of
from harness import Wrong
from spools import next_number

# How many allocations each case makes: a run that refuses fewer left some out, or the program has come to ask less
# often, and the case's number here follows.
COUNTED = {
    "stored run": 345,
    "two connections": 395,
    "metadata": 339,
    "one winner": 344,
    "long GET": 348,
    "deletion": 365,
    "deferred length": 373,
    "upgrade": 286,
    "raise": 284,
}
LIBRARY = r"""
#define _GNU_SOURCE
#include <dlfcn.h>
#include <stdlib.h>
#include <string.h>
#include <unistd.h>

static long count, refused = -1;

static int refuses(void) {
    if (refused < 0) {
        const char *given = getenv("REFUSED");
        refused = given ? atol(given) : 0;
    }
    if (++count != refused) return 0;
    return write(9, "!", 1) == 1;
}

static void *made(size_t size) {
    static void *(*real)(size_t);
    if (!real) real = dlsym(RTLD_NEXT, "malloc");
    return real(size);
}

void *malloc(size_t size) {
    return refuses() ? NULL : made(size);
}

void *calloc(size_t count, size_t size) {
    size_t all;
    if (__builtin_mul_overflow(count, size, &all) || refuses()) return NULL;
    void *to = made(all);
    return to ? memset(to, 0, all) : NULL;
}

void *realloc(void *old, size_t size) {
    static void *(*real)(void *, size_t);
    if (!real) real = dlsym(RTLD_NEXT, "realloc");
    return refuses() ? NULL : real(old, size);
}

int posix_memalign(void **to, size_t align, size_t size) {
    static int (*real)(void **, size_t, size_t);
    if (!real) real = dlsym(RTLD_NEXT, "posix_memalign");
    return refuses() ? 12 : real(to, align, size);
}

void *aligned_alloc(size_t align, size_t size) {
    static void *(*real)(size_t, size_t);
    if (!real) real = dlsym(RTLD_NEXT, "aligned_alloc");
    return refuses() ? NULL : real(align, size);
}
"""
SHIFT_JIS = "こんにちは、世界。".encode("cp932")
LONG = b"0123456789abcdef" * 10_000
TUS = "Tus-Resumable: 1.0.0"


def say(conn, *lines):
    """A head of these lines."""
    return [f"say {conn} {line}" for line in lines] + [f"say {conn}"]


def came(conn, data):
    return [f"came {conn} {data[at : at + 30_000].hex()}" for at in range(0, len(data), 30_000)]


def post(conn, length, label, note="", to=""):
    """Makes an upload, of a length or (None) a deferred one."""
    line = "Upload-Defer-Length: 1" if length is None else f"Upload-Length: {length}"
    values = {"from": label, "filename": note, "to": to}
    pairs = [f"{key} {base64.b64encode(value.encode()).decode()}" for key, value in values.items() if value]
    return say(conn, "POST /files HTTP/1.1", TUS, line, f"Upload-Metadata: {','.join(pairs)}")


def patch(conn, number, offset, data, length=None):
    """Puts bytes at an upload's end, and may declare its length."""
    head = [f"PATCH /files/{number} HTTP/1.1", TUS, "Content-Type: application/offset+octet-stream"]
    head += [] if length is None else [f"Upload-Length: {length}"]
    return say(conn, *head, f"Upload-Offset: {offset}", f"Content-Length: {len(data)}") + came(conn, data)


def ask(conn, method, number):
    return say(conn, f"{method} /files/{number} HTTP/1.1", TUS)


# An upload's bytes and encoding, and whether its length comes with the last of them.
Upload = namedtuple("Upload", "data codec deferred", defaults=[False])

# A case: the script that makes its uploads, and how many bytes it leaves of each; the script that is tried, and what
# its connections are told: the status and Location or Upload-Offset of each reply; the uploads by number; and a case
# for each connection whose refusal changes what the others are told: they are told what they are in that case. A
# connection of the tried script sends to the upload of its own number alone, or all send to the upload 1.
Case = namedtuple("Case", "before left tried told uploads without", defaults=[{}])

# The upload and the first connection of two that begin at one offset: the second ends first, and wins, or isn't there.
RACE = ["open 0", *post(0, 5, "utf-8")]
FIRST = ["open 1", "open 2", *patch(1, 1, 0, b"abc")[:-1], *came(1, b"ab")]
FIRST_ALONE = Case(
    RACE,
    {1: 0},
    [*FIRST, *came(1, b"c"), *ask(1, "GET", 1), "cut 2"],
    {1: ["204 3", "200"]},
    {1: Upload(b"abcde", "utf-8")},
)

CASES = {
    "stored run": Case(
        ["open 0"],
        {},
        ["open 1", *post(1, 5, "utf-8"), *patch(1, 1, 0, b"hello"), *ask(1, "HEAD", 1), *ask(1, "GET", 1), "cut 1"],
        {1: ["201 /files/1", "204 5", "200 5", "200"]},
        {1: Upload(b"hello", "utf-8")},
    ),
    "two connections": Case(
        ["open 0", *post(0, 9, "utf-8"), *post(0, 18, "shift_jis")],
        {1: 0, 2: 0},
        [
            *["open 1", "open 2", *patch(1, 1, 0, "aéb".encode()), *patch(2, 2, 0, SHIFT_JIS[:7])],
            *[*patch(1, 1, 4, b"cdefg"), *patch(2, 2, 7, SHIFT_JIS[7:]), *ask(1, "GET", 1), *ask(2, "GET", 2), "cut 1"],
        ],
        {1: ["204 4", "204 9", "200"], 2: ["204 7", "204 18", "200"]},
        {1: Upload("aéb".encode() + b"cdefg", "utf-8"), 2: Upload(SHIFT_JIS, "cp932")},
    ),
    "metadata": Case(
        ["open 0"],
        {},
        ["open 1", *post(1, 3, "windows-1252", "a" * 900), *patch(1, 1, 0, b"abc"), *ask(1, "HEAD", 1), "cut 1"],
        {1: ["201 /files/1", "204 3", "200 3"]},
        {1: Upload(b"abc", "cp1252")},
    ),
    "one winner": Case(
        RACE,
        {1: 0},
        [*FIRST, *patch(2, 1, 0, b"xy"), *came(1, b"c"), *ask(1, "GET", 1), "cut 2"],
        {1: ["409", "200"], 2: ["204 2"]},
        {1: Upload(b"xyzzy", "utf-8")},
        {2: FIRST_ALONE},
    ),
    "long GET": Case(
        ["open 0", *post(0, len(LONG), "utf-8"), *patch(0, 1, 0, LONG)],
        {1: 160_000},
        ["open 1", "open 2", *ask(1, "GET", 1), *ask(2, "HEAD", 1), *ask(2, "GET", 1), "cut 2"],
        {1: ["200"], 2: ["200 160000", "200"]},
        {1: Upload(LONG, "utf-8")},
    ),
    "deletion": Case(
        ["open 0", *post(0, 5, "utf-8"), *patch(0, 1, 0, b"hello"), *post(0, 18, "shift_jis")],
        {1: 5, 2: 0},
        [
            *["open 1", "open 2", *patch(2, 2, 0, SHIFT_JIS[:7]), *ask(1, "DELETE", 1), *ask(1, "HEAD", 1)],
            *[*patch(2, 2, 7, SHIFT_JIS[7:]), *ask(2, "GET", 2), "cut 1"],
        ],
        {1: ["204", "404"], 2: ["204 7", "204 18", "200"]},
        {1: Upload(b"hello", "utf-8"), 2: Upload(SHIFT_JIS, "cp932")},
    ),
    "deferred length": Case(
        ["open 0"],
        {},
        [
            *["open 1", *post(1, None, "shift_jis"), *patch(1, 1, 0, SHIFT_JIS[:7]), *ask(1, "HEAD", 1)],
            *[*patch(1, 1, 7, SHIFT_JIS[7:], 18), *ask(1, "HEAD", 1), *ask(1, "GET", 1), "cut 1"],
        ],
        {1: ["201 /files/1", "204 7", "200 7", "204 18", "200 18", "200"]},
        {1: Upload(SHIFT_JIS, "cp932", deferred=True)},
    ),
}


class Run:
    """A script, or another command, over a spool, with one allocation refused, if any."""

    def __init__(self, program, spool, lines, library=None, number=0, command="script", more=()):
        env = dict(os.environ, REFUSED=str(number))
        if library:
            env["LD_PRELOAD"] = str(library)
        read, write = os.pipe()
        os.dup2(write, 9)
        os.close(write)
        given = "".join(f"{line}\n" for line in lines).encode()
        how = {"input": given, "capture_output": True, "env": env, "pass_fds": [9], "timeout": 60}
        ran = subprocess.run([program, command, str(spool), *more], **how)
        os.close(9)
        self.reached = os.read(read, 1) == b"!"
        os.close(read)
        self.status, self.out, self.said = ran.returncode, ran.stdout, ran.stderr.decode()

    def answers(self):
        """What each connection was given, in order."""
        found, at = {}, 0
        while at < len(self.out):
            line, at = self.out[at : self.out.index(b"\n", at)].decode(), self.out.index(b"\n", at) + 1
            kind, conn, *more = line.split(" ")
            if kind == "<":
                found.setdefault(conn, []).append(self.out[at : at + int(more[0])])
                at += int(more[0]) + 1
            else:
                found.setdefault(conn, []).append(line)
        return found

    def replies(self):
        """The replies to each connection: the status, with a Location or an Upload-Offset where there is one."""
        found = {}
        for conn, answers in self.answers().items():
            given = b"".join(it for it in answers if isinstance(it, bytes)).decode("utf-8", "replace")
            heads = re.findall(r"HTTP/1\.1 (\d+).*?\r\n(.*?)\r\n\r\n", given, re.S)
            told = [(status, re.search(r"(?:Location|Upload-Offset): (\S+)", fields)) for status, fields in heads]
            found[int(conn)] = [f"{status} {value[1]}" if value else status for status, value in told]
        return found

    def told(self, case):
        """The offset that was told last of each upload, None where its deletion was; before the run, what was left."""
        found = dict(case.left)
        for conn, replies in self.replies().items():
            for reply in replies:
                status, _, value = reply.partition(" ")
                if status == "201":
                    found[int(value.rpartition("/")[2])] = 0
                elif status == "204":
                    found[conn if conn in case.uploads else 1] = int(value) if value else None
        return found


def is_refused(conn, got, wanted):
    """Whether a connection was given a prefix of what it is given, then refused for memory, and then not open."""
    at = next((n for n, answer in enumerate(got) if answer == f"! {conn} 0"), len(got))
    return at < len(got) and got[:at] == wanted[:at] and all(it == f"! {conn} 30" for it in got[at + 1 :])


def is_refused_once(answers, wanted):
    """Whether one connection at most was refused, and all others were given what they are given without."""
    differ = [conn for conn in wanted if answers.get(conn, []) != wanted[conn]]
    return not differ or len(differ) == 1 and is_refused(differ[0], answers.get(differ[0], []), wanted[differ[0]])


def list_of(program, spool):
    """How many bytes of each upload are accepted, and how many are declared, by the word for it."""
    ran = subprocess.run([program, "list", str(spool)], capture_output=True, text=True, timeout=60)
    holds(f"an opening ends with status {ran.returncode}, {ran.stderr!r}", ran.returncode == 0)
    lines = re.findall(r"^(\d+) (\d+)/(\d+|\?) ", ran.stdout, re.M)
    return {int(number): (int(accepted), declared) for number, accepted, declared in lines}


def text_of(data, codec):
    """The text of the first bytes of an upload: a character that isn't whole isn't there yet."""
    return codecs.getincrementaldecoder(codec)().decode(data).encode()


def holds_what_was_told(program, spool, case, run, whole):
    """Each upload has at least what was told, and exactly that where the run went on; and exactly the text of what it
    has. There are no uploads that weren't told, but for what was under way when a run ended."""
    listed, least, most = list_of(program, spool), run.told(case), whole.told(case)
    if run.status == 0:
        most = least
    for number, upload in case.uploads.items():
        if number not in listed:
            gone = least.get(number) is None or most.get(number, 0) is None
            holds(f"upload {number} isn't there, and {least.get(number)} was told", gone)
            continue
        holds(f"upload {number} is there", number in most and least.get(number, 0) is not None)
        accepted, declared = listed[number]
        top = len(upload.data) if most[number] is None else most[number]
        reach = f"upload {number} has {accepted} bytes, told were {least.get(number)}, and at the end {top}"
        holds(reach, least.get(number, 0) <= accepted <= top)
        same(f"upload {number} is declared", declared, declared_of(upload, accepted))
        got = Run(program, spool, ["open 0", *ask(0, "GET", number)]).answers()["0"]
        text = b"".join(got).partition(b"\r\n\r\n")[2]
        same(f"the text of upload {number}", text, text_of(upload.data[:accepted], upload.codec))
    same("the uploads", set(listed) - set(case.uploads), set())


def declared_of(upload, accepted):
    """How many bytes an upload is declared to have where so many are accepted, as a list says it."""
    return "?" if upload.deferred and accepted < len(upload.data) else str(len(upload.data))


def ended_well(run, whole, others):
    """A run ended for want of memory after a prefix of its output, or went on without one connection: the others are
    told what they are in a run without it."""
    if run.status == 2:
        same("what is said", run.said, "refused: 0 NoMemory\n")
        holds(f"another output: {run.out}", whole.out.startswith(run.out))
    else:
        same("the status", run.status, 0)
        wanted = {**whole.answers(), **others.answers()}
        holds(f"others are answered otherwise: {run.out}", is_refused_once(run.answers(), wanted))


def each_refused(name, every, run_at, judge):
    """Refuses one allocation after the other, of every so many, until none is left: what went wrong."""
    wrong, ended, tried, number = [], 0, 0, 1
    while (run := run_at(number)).reached:
        tried, ended = tried + 1, ended + (run.status == 2)
        try:
            judge(run)
        except Wrong as error:
            wrong.append(f"{name}, allocation {number}: {error}")
        number += every
    if tried < COUNTED[name] // every:
        wrong.append(f"{name}: {tried} allocations were refused, at least {COUNTED[name] // every} expected")
    print(f"{name}: {tried} allocations refused in turn, {ended} ended the run, {len(wrong)} wrong", flush=True)
    return wrong


def try_case(program, folder, library, every, name):
    """Each allocation of a case, refused in turn: what went wrong."""
    case, made, spool = CASES[name], folder / "made", folder / "spool"
    shutil.copyfile(folder / "empty", made)
    same("the status of the script before", Run(program, made, case.before).status, 0)
    listed = {number: accepted for number, (accepted, _) in list_of(program, made).items()}
    same("the uploads before", listed, case.left)

    def run_of(case, *refused):
        shutil.copyfile(made, spool)
        return Run(program, spool, case.tried, *refused)

    def whole_of(case):
        whole = run_of(case)
        same("the replies", whole.replies(), case.told)
        holds_what_was_told(program, spool, case, whole, whole)
        return whole

    whole = whole_of(case)
    without = {conn: (other, whole_of(other)) for conn, other in case.without.items()}
    seen = set()

    def run_at(number):
        return run_of(case, library, number)

    def judge(run):
        gone = next((conn for conn in without if f"! {conn} 0" in run.answers().get(str(conn), [])), None)
        other, others = without.get(gone, (case, whole))
        seen.add(gone)
        ended_well(run, whole, others)
        holds_what_was_told(program, spool, other, run, others)

    wrong = each_refused(name, every, run_at, judge)
    return wrong + [f"{name}: connection {conn} was never refused" for conn in without if conn not in seen]


def but_journal(spool):
    """A spool's bytes, without the head and the pages of its journal."""
    data = spool.read_bytes()
    return data[:8192] + data[state_page(spool) - 22 * 4096 :]


def make_both(program, folder):
    """A spool of version 2 with three uploads, and the same in version 1: their paths."""
    new, old = folder / "new", folder / "old"
    shutil.copyfile(folder / "empty", new)
    lines = ["open 0", *post(0, 5, "utf-8"), *patch(0, 1, 0, b"hello"), *post(0, 18, "shift_jis", "a" * 900)]
    lines += [*patch(0, 2, 0, SHIFT_JIS[:7]), *post(0, None, "shift_jis"), *patch(0, 3, 0, SHIFT_JIS[:7])]
    same("the status of the script before", Run(program, new, lines).status, 0)
    shutil.copyfile(new, old)
    make_old(old)
    same("the versions", (version_of(new), version_of(old)), (2, 1))
    for spool in new, old:
        same("the uploads before", list_of(program, spool), {1: (5, "5"), 2: (7, "18"), 3: (7, "?")})
    return new, old


def try_upgrade(program, folder, library, every):
    """Each allocation of an upgrade, refused in turn: what went wrong."""
    new, old = make_both(program, folder)
    spool = folder / "spool"

    def run_at(number):
        shutil.copyfile(old, spool)
        return Run(program, spool, [], library, number, "upgrade")

    def judge(run):
        if run.status == 2:
            same("what is said", (run.said, run.out), ("refused: 0 NoMemory\n", b""))
            holds("a byte of the spool is another", spool.read_bytes() == old.read_bytes())
        else:
            same("what is said", (run.status, run.out), (0, b"upgraded to version 2\n"))
            holds("a byte isn't that of version 2", but_journal(spool) == but_journal(new))

    wrong = each_refused("upgrade", every, run_at, judge)
    judge(run_at(0))
    return wrong


def try_raise(program, folder, library, every):
    """Each allocation of a raise, refused in turn: what went wrong."""
    before, _ = make_both(program, folder)
    after, spool = folder / "after", folder / "spool"
    shutil.copyfile(before, after)
    same("a raise", Run(program, after, [], command="raise", more=["1000"]).out, b"next number 1000\n")

    def run_at(number):
        shutil.copyfile(before, spool)
        return Run(program, spool, [], library, number, "raise", ["1000"])

    def judge(run):
        if run.status == 2:
            same("what is said", (run.said, run.out), ("refused: 0 NoMemory\n", b""))
            holds("a byte of the spool is another", spool.read_bytes() == before.read_bytes())
        else:
            same("what is said", (run.status, run.out), (0, b"next number 1000\n"))
            same("the next number", next_number(spool), 1000)
            holds("a byte isn't that of a raised spool", but_journal(spool) == but_journal(after))

    wrong = each_refused("raise", every, run_at, judge)
    judge(run_at(0))
    return wrong


COMMANDS = {"upgrade": try_upgrade, "raise": try_raise}


def main():
    words = parser_of(__doc__)
    words.add_argument("--every", type=int, default=1, help="refuses one allocation in so many (1)")
    words.add_argument("cases", nargs="*", help="`upgrade`, `raise`, or a case's name, in place of all")
    given = words.parse_args()
    wrong = []
    with tempfile.TemporaryDirectory() as name:
        folder = Path(name)
        library = build_library(folder, "growths", LIBRARY)
        format_spool(given.program, folder / "empty", 64, indexes_in(folder, given.indexes))
        for case in given.cases or [*CASES, *COMMANDS]:
            trial = COMMANDS.get(case) or (lambda *words: try_case(*words, case))
            try:
                wrong += trial(given.program, folder, library, given.every)
            except (Wrong, subprocess.SubprocessError) as error:
                wrong.append(f"{case}: {error}")
    print("\n".join(wrong[:20]) or "all that was told held")
    raise SystemExit(1 if wrong else 0)


if __name__ == "__main__":
    main()
