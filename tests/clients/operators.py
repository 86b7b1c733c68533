#!/usr/bin/env python3
"""What an operator is told before a text is lost, and after a refusal.

    python3 tests/clients/operators.py --indexes DIR [--program PATH] [--seed N]

DIR has the standard's index files. `format` is given them whole, and then with one of them empty, of some lines, cut
within a line, missing, under another's name, or with two entries exchanged: it says how many entries it read, warns of
each file that isn't the standard's, and a spool made after a warning does spoil a text, while one made of the
standard's doesn't. With `--standard-indexes` it makes none of other files. The standard's digests in the program's
source are those of the files in DIR. `list` says the same of the spools that were made. `text` says how often the text
has U+FFFD, for random bytes in every encoding; it names the label, the mode or the index file that it was refused for,
and the place of a character without a code. `list` says what is free, names the texts with U+FFFD and the file names,
and `--json` says the same as the records in the spool's bytes. `format` makes a spool of a file that isn't there or has
nothing but zeros, and of any other that is none only with `--overwrite`; where there is no room it leaves no new file.
`delete --incomplete` prints what it would delete, and deletes exactly that with `--yes`, and never what `--but` names.
`raise` gives a spool a later next number and never an earlier one, and no upload changes: a copy that is put back and
raised gives no number again, and a spool that is made with `--first` begins there. tools/read-spool lists a copy and
gives its texts as the program does, and of a damaged one what is left. Each refusal of a command has its status, its
line, and a second line that says what to do. While a gateway serves a spool each command by hand is told that it is in
use, and after it is ended the spool can be had at once. The log's line of a minute has what is left in the spool. It
takes a minute.
"""

import hashlib
import json
import os
import re
import resource
import shutil
import signal
import socket
import struct
import subprocess
import tempfile
import time
from pathlib import Path

from growths import patch, post
from harness import ENCODINGS, ROOT, Server, Wrong, build_library, holds, parser_of, random_bytes, rng_of, same
from spools import Spool

BLOCKS = 64
STANDARD = {"jis0208": 7724, "jis0212": 6067, "iso-2022-jp-katakana": 63, "windows-1253": 125, "windows-1255": 118}
STANDARD["windows-1257"] = 126
NEEDED_BY = {"jis0208": "Shift_JIS, EUC-JP and ISO-2022-JP", "jis0212": "EUC-JP", "iso-2022-jp-katakana": "ISO-2022-JP"}
LOST = "\ufffd"
MOST = 10**18 - 10**15
# A library by which the call that CALL names fails.
FAILING = r"""
#define _GNU_SOURCE
#include <dlfcn.h>
#include <errno.h>
#include <stdlib.h>
#include <string.h>
#include <unistd.h>

static int fails(const char *name) {
    errno = EIO;
    return getenv("CALL") && !strcmp(getenv("CALL"), name);
}

int fsync(int fd) {
    return fails("fsync") ? -1 : ((int (*)(int)) dlsym(RTLD_NEXT, "fsync"))(fd);
}

int ftruncate(int fd, off_t size) {
    return fails("ftruncate") ? -1 : ((int (*)(int, off_t)) dlsym(RTLD_NEXT, "ftruncate"))(fd, size);
}

int ftruncate64(int fd, off64_t size) {
    return fails("ftruncate") ? -1 : ((int (*)(int, off64_t)) dlsym(RTLD_NEXT, "ftruncate64"))(fd, size);
}
"""


class Program:
    """The program, in a folder of its own."""

    def __init__(self, path, folder):
        self.path, self.folder = path, folder

    def run(self, *words, given=b""):
        words = [self.path, *map(str, words)]
        return subprocess.run(words, input=given, capture_output=True, timeout=60, cwd=self.folder)

    def does(self, *words, given=b""):
        """Runs a command that has to succeed: what it printed, and what it said on standard error."""
        ran = self.run(*words, given=given)
        same(f"the status of {words}, {ran.stderr!r}", ran.returncode, 0)
        return ran.stdout, ran.stderr.decode()

    def refuses(self, status, refusal, advice, *words, given=b""):
        """Runs a command that has to be refused with this line, and then with one that has these words."""
        ran = self.run(*words, given=given)
        lines = ran.stderr.decode().splitlines()
        same(f"the refusal of {words}", (ran.returncode, lines[:1]), (status, [refusal]))
        holds(f"{words} is told {lines[1:]}, not {advice!r}", len(lines) == 2 and advice in lines[1])
        return ran.stdout

    def made(self, name, *lines, indexes="idx"):
        """Makes a spool, and runs a script over it."""
        self.does("format", name, "--blocks", BLOCKS, "--indexes", indexes)
        self.does("script", name, given="".join(f"{line}\n" for line in lines).encode())
        return self.folder / name


def is_whole(name, count):
    return count == STANDARD.get(name, 128)


def exchanged(entries, at):
    """The entries, with the code points of two of them exchanged."""
    (first, one), (second, other) = (entries[it].split(b"\t", 1) for it in (at - 1, at))
    return [*entries[: at - 1], first + b"\t" + other, second + b"\t" + one, *entries[at + 1 :]]


def digest_of(file):
    """The digest of an index file's entries, by pointer."""
    entries = (line.split("\t") for line in file.read_text().splitlines() if line.strip() and line[0] != "#")
    pairs = sorted((int(it[0]), int(it[1], 16)) for it in entries)
    return hashlib.sha256(b"".join(struct.pack(">II", *pair) for pair in pairs)).hexdigest()


def try_digests(folder):
    """The digests in the source, each after the name of its file, are those of the standard's files."""
    source = (ROOT / "crates/gateway_indexes/src/digests.rt").read_text()
    told = re.findall(r"/// Of (index-.*\.txt)\.\n.* = \[([^]]*)\];", source)
    got = {name: "".join(re.findall("0x(..)", digits)).lower() for name, digits in told}
    same("the digests", got, {it.name: digest_of(it) for it in folder.glob("index-*.txt")})
    return len(got)


def index_cases(folder, rng):
    """Folders with index files of which one isn't whole, or isn't there: the folder, the file, and its entries."""
    for name in ["jis0208", "jis0212", "iso-2022-jp-katakana", "koi8-r", "windows-1255"]:
        file = f"index-{name}.txt"
        whole = (folder / "idx" / file).read_bytes()
        lines = whole.splitlines(keepends=True)
        entries = [it for it in lines if it.strip() and not it.startswith(b"#")]
        some = rng.randrange(1, len(entries))
        cases = {"empty": (b"", 0), "begun": (b"".join(entries[:some]), some), "missing": (None, None)}
        # cut after the first digit of the code point of an entry
        cases["cut"] = (b"".join(entries[:some]) + entries[some].partition(b"\t0x")[0] + b"\t0x3", some + 1)
        cases["exchanged"] = (b"".join(exchanged(entries, some)), len(entries))
        for case, (data, count) in cases.items():
            place = folder / f"{name}-{case}"
            shutil.copytree(folder / "idx", place)
            (place / file).unlink()
            if data is not None:
                (place / file).write_bytes(data)
            yield place, name, count


def try_indexes(program, rng):
    """`format` says of each index file how many entries it read."""
    out, said = program.does("format", "whole", "--blocks", BLOCKS, "--indexes", "idx")
    lines = said.splitlines()
    same("the files read", lines[0], "index files read: 18")
    counts = dict(re.findall(r"^index-(.*)\.txt: (\d+) entries$", said, re.M))
    same("what is said of whole files", (len(lines), len(counts)), (19, 18))
    holds("a whole file isn't", all(is_whole(name, int(count)) for name, count in counts.items()))
    same("the digests", try_digests(program.folder / "idx"), 18)
    same("with the standard's alone", program.does("format", "strict", *STRICT, "--indexes", "idx"), (out, said))
    same("what `list` says of it", program.does("list", "strict")[1].count("\n"), 1)
    met = 0
    for place, name, count in index_cases(program.folder, rng):
        spool = program.folder / f"{place.name}.spool"
        told, said = program.does("format", spool, "--blocks", BLOCKS, "--indexes", place)
        same("the line", told, out)
        lines = [it for it in said.splitlines() if not it.startswith("index")]
        if count is None:
            same("what isn't there", lines, [f"not offered: {label_of(name)}, since index-{name}.txt isn't there"])
            lines = [f"not offered: {label_of(name)}, since the spool has no index-{name}.txt"]
        else:
            same("the warning", lines[0], warning_of(name, count))
            holds("no second warning", lines[1].startswith(f"WARNING: texts in {label_of(name)} will be spoiled"))
            same("how many warnings", len(lines), 2)
        same("what `list` says of it", program.does("list", spool)[1].splitlines()[1:], lines)
        doubts = {"missing": [], "other": [], "missing" if count is None else "other": [f"index-{name}.txt"]}
        last = program.does("list", spool, "--json")[0].splitlines()[-1]
        same("the last line of JSON", json.loads(last), {"indexes": doubts})
        refuses_others(program, place, said)
        met += 1
    met += try_another(program)
    made = program.folder / "none"
    made.mkdir()
    _, said = program.does("format", "bare", "--blocks", BLOCKS, "--indexes", made)
    same("of an empty folder", said.count("not offered: "), 18)
    spoils(program, "whole", False)
    spoils(program, "jis0208-begun.spool", True)
    return met + 2


STRICT = ["--blocks", BLOCKS, "--standard-indexes"]


def warning_of(name, count):
    """What is said first of an index file that isn't the standard's."""
    if is_whole(name, count):
        return f"WARNING: index-{name}.txt isn't the standard's: other entries, though as many ({count})"
    first = f"WARNING: index-{name}.txt isn't whole: it has {count} entries, and the standard's "
    return f"{first}{STANDARD.get(name, 128)}"


def refuses_others(program, place, said):
    """No spool is made of other files than the standard's, where they have to be, and the files are told of."""
    ran = program.run("format", "other", *STRICT, "--indexes", place)
    same("the status of other files", (ran.returncode, ran.stdout), (2, b""))
    first, advice = f"{said}refused: 41 OtherIndexes\n", f"{place} hasn't the standard's 18 index files, and no spool"
    holds(f"what is said of {place}: {ran.stderr!r}", ran.stderr.decode().startswith(first + advice))
    holds("a spool was made", not (program.folder / "other").exists())


def try_another(program):
    """Another single-byte encoding's file under a name is told, though it has as many entries."""
    place = program.folder / "another"
    shutil.copytree(program.folder / "idx", place)
    shutil.copyfile(place / "index-windows-1251.txt", place / "index-koi8-r.txt")
    _, said = program.does("format", "another.spool", "--blocks", BLOCKS, "--indexes", place)
    same("the warning", [it for it in said.splitlines() if "WARNING" in it][0], warning_of("koi8-r", 128))
    refuses_others(program, place, said)
    return 1


def label_of(name):
    """The encodings that need an index, as the program names them."""
    return NEEDED_BY.get(name) or {"koi8-r": "KOI8-R"}.get(name, name)


def spoils(program, spool, does):
    """Whether a Japanese text in the spool has U+FFFD."""
    data = "".join(chr(c) for c in range(0x4E00, 0x9FA0)).encode("cp932", "ignore")
    lines = ["open 1", *post(1, len(data), "shift_jis"), *patch(1, 1, 0, data)]
    program.does("script", spool, given="".join(f"{line}\n" for line in lines).encode())
    same(f"{spool} spoils a text", LOST in text_in(program, spool, 1), does)


def text_in(program, spool, number):
    """An upload's text, which is in UTF-8."""
    return text_of(Spool((program.folder / spool).read_bytes()), number).decode()


def text_of(spool, number):
    return next(spool.text(it) for it in spool.records() if it.number == number)


def try_texts(program, rng):
    """`text` says how often the text has U+FFFD, and why it is refused."""
    tried = 0
    for label in ENCODINGS:
        data = random_bytes(rng, rng.randrange(20_000))
        text, said = program.does("text", "--from", label, "--indexes", "idx", given=data)
        same(f"what is said of {label}", said, f"U+FFFD in the text: {text.decode().count(LOST)}\n")
        tried += 1
    data = b"a\xff" * 5000 + "\u20ac".encode()
    text, said = program.does("text", "--from", "utf-8", "--to", "koi8-r", "--indexes", "idx", given=data)
    same("references for U+FFFD", said, f"U+FFFD in the text: {text.count(b'&#65533;')}\n")
    tried += try_strict(program)
    for before in 0, 1, 4095, 4096, 10_000:
        words = ["text", "--from", "utf-8", "--to", "windows-1251", "--mode", "fatal", "--indexes", "idx"]
        advice = f"windows-1251 lacks U+3042, after the {before} bytes that were written"
        out = program.refuses(2, "refused: 6 Unencodable", advice, *words, given=b"a" * before + "\u3042b".encode())
        same("what comes before it", out, b"a" * before)
    words = ["text", "--indexes", "idx"]
    bad = "refused: 28 BadLabel"
    program.refuses(2, bad, "--from klingon: no label of an encoding that the gateway has", *words, "--from", "klingon")
    big5 = ["--from", "utf-8", "--to", "big5"]
    program.refuses(2, bad, "--to big5: no label of an encoding that the gateway has", *words, *big5)
    strict = ["--from", "utf-8", "--mode", "strict"]
    program.refuses(2, bad, "--mode strict: the modes are html and fatal", *words, *strict)
    lacks = ["text", "--indexes", "jis0208-missing", "--from", "sjis"]
    program.refuses(2, bad, "jis0208-missing lacks an index file that sjis needs", *lacks)
    return tried + try_previews(program)


def try_previews(program):
    """`text` and `labels` say which index files aren't the standard's. Who reads a line of `labels` is no failure."""
    others = shutil.copytree(program.folder / "idx", program.folder / "others")
    lines = (others / "index-koi8-r.txt").read_text().splitlines()
    (others / "index-koi8-r.txt").write_text("\n".join(lines[:20]))
    told = "WARNING: index-koi8-r.txt isn't the standard's: what is in KOI8-R may be read wrong\n"
    letters = b"\xc1" * 20
    _, said = program.does("text", "--from", "koi8-r", "--indexes", "others", given=letters)
    holds(f"what `text` says of other index files: {said}", said.startswith(told))
    _, said = program.does("labels", "--indexes", "others", given=letters)
    holds(f"what `labels` says of them: {said}", said.startswith(told))
    head = 'printf %s "$1" | "$0" labels --indexes idx | head -1 > /dev/null; exit ${PIPESTATUS[1]}'
    for _ in range(20):
        words = ["bash", "-c", head, program.path, "Съешь ещё".encode("koi8-r")]
        ran = subprocess.run(words, capture_output=True, cwd=program.folder)
        same("the status of `labels | head -1`, and what it says", (ran.returncode, ran.stderr), (0, b""))
    return 3


def try_strict(program):
    """`text --strict` refuses a text that has U+FFFD, after all of it."""
    clean = ("utf-8", b"a" * 4095 + "こ".encode()), ("utf-16le", b"a\0" * 5000), ("koi8-r", b"\xff" * 9), ("utf-8", b"")
    own = ("a" * 4095 + LOST * 3).encode()
    lost = ("utf-8", own), ("utf-8", b"a\xff\xc0"), ("utf-16be", b"\0a\xd8\x00"), ("shift_jis", b"\xef\xbf\xbd\xff")
    for label, data in clean:
        text, said = program.does("text", "--strict", "--from", label, "--indexes", "idx", given=data)
        same(f"what is said of {label}", (said, LOST in text.decode()), ("U+FFFD in the text: 0\n", False))
    for label, data in lost:
        words = ["text", "--from", label, "--indexes", "idx"]
        text, said = program.does(*words, given=data)
        ran = program.run(*words, "--strict", given=data)
        same("the status and the text", (ran.returncode, ran.stdout), (2, text))
        advice = f"bytes are lost: {label} is another label than theirs"
        holds(f"{ran.stderr!r}", ran.stderr.decode().startswith(f"{said}refused: 43 Lost\n{advice}"))
    return len(clean) + len(lost)


# Each upload: its bytes, its length (None: not known), its label, and its file name.
UPLOADS = [
    (b"hello", 5, "utf-8", "hello.txt"),
    (b"a\xff\xffb\xfe", 9, "utf-8", "Приказ 7.txt"),
    ("世界".encode("cp932"), None, "shift_jis", ""),
    (b"x" * 10_000, 10_000, "koi8-r", "tab\there"),
    (b"", 0, "utf-8", "../up"),
    (b"\xff" * 3000, 3000, "utf-8", ""),
]


def script_of_uploads():
    lines = ["open 1"]
    for number, (data, length, label, name) in enumerate(UPLOADS, 1):
        lines += post(1, length, label, name)
        lines += patch(1, number, 0, data) if data else []
    return lines


def try_lists(program):
    """`list` says what is free and where texts have U+FFFD; `--json` says what the spool's bytes do."""
    spool = Spool(program.made("listed", *script_of_uploads()).read_bytes())
    records = spool.records()
    used = sum(-(-it.length // 4096) for it in records)
    free = f"version 2, {BLOCKS - used} of {BLOCKS} blocks free, {512 - len(records)} of 512 slots free\n"
    plain, said = program.does("list", "listed")
    same("what is free", said, free)
    losses = {it.number: text_of(spool, it.number).decode().count(LOST) for it in records}
    long, said = program.does("list", "listed", "--long")
    told = [f"U+FFFD in the text of {number}: {count}\n" for number, count in losses.items() if count]
    same("the texts with U+FFFD", said, free + "".join(told))
    names = {1: "hello.txt", 2: "Приказ 7.txt"}
    for line, shown in zip(plain.decode().splitlines(), long.decode().splitlines(), strict=True):
        number = int(line.split()[0])
        holds(f"{shown!r} after {line!r}", shown.startswith(line))
        same("a name", re.findall(r" \(filename: (.*)\)$", shown), [names[number]] if number in names else [])
    out, _ = program.does("list", "listed", "--json")
    *lines, last = out.decode().splitlines()
    same("what is in doubt", json.loads(last), {"indexes": {"missing": [], "other": []}})
    for line, record, given in zip(lines, records, UPLOADS, strict=True):
        got = json.loads(line)
        declared = given[1]
        wanted = {"number": record.number, "accepted": len(given[0]), "declared": declared, "text": record.length,
                  "complete": len(given[0]) == declared, "mode": "html", "to": "UTF-8", "losses": losses[record.number],
                  "filename": given[3] or None}
        same("a line of JSON", {key: got[key] for key in wanted}, wanted)
        same("its encoding", got["from"].lower(), given[2])
        holds("its metadata", got["metadata"].startswith("from "))
    try_hidden(program)
    return len(records)


def try_hidden(program):
    """What a terminal wouldn't show as it is stands in no line of `list`, and escaped in JSON."""
    hidden = "\x9b\x7f\u061c\u200b\u200e\u2028\u202e\u2066\ufeff"
    name = f"a{hidden}z"
    program.made("hidden", "open 1", *post(1, 0, "utf-8", name))
    out, _ = program.does("list", "hidden", "--json")
    same("hidden characters in JSON", set(out.decode()) & set(hidden), set())
    same("the name", json.loads(out.decode().splitlines()[0])["filename"], name)
    holds("no name", b"filename:" not in program.does("list", "hidden", "--long")[0])


def reads(status, *words):
    """What tools/read-spool prints, and what it says of it."""
    ran = subprocess.run([ROOT / "tools/read-spool", *map(str, words)], capture_output=True, timeout=60)
    same(f"the status of read-spool {words}, {ran.stderr!r}", ran.returncode, status)
    return ran.stdout, ran.stderr.decode()


def try_reader(program):
    """tools/read-spool gives the lines and the texts that the program does; of a spool whose row is damaged what is
    left, with zeros in the place of a lost block."""
    copy, into = program.folder / "listed", program.folder / "read"
    into.mkdir()
    same("the lines", reads(0, copy)[0].decode(), program.does("list", "listed")[0].decode().lower())
    reads(0, copy, "--into", into)
    for record in Spool(copy.read_bytes()).records():
        text = text_of(Spool(copy.read_bytes()), record.number)
        same(f"the text of {record.number}", reads(0, copy, record.number)[0], text)
        same(f"the file of {record.number}", (into / f"{record.number}.txt").read_bytes(), text)
    spool, damaged = Spool(copy.read_bytes()), program.folder / "broken"
    row = next(at for at, owner in zip(spool.rows_at(), spool.owners()) if owner == (4, 1))
    damaged.write_bytes(spool.data[: row + 3] + b"\0" + spool.data[row + 4 :])
    out, said = reads(1, damaged, 4)
    same("what is left", out, b"x" * 4096 + bytes(4096) + b"x" * 1808)
    holds(said, said.endswith("2 Damaged\n4: no block has ordinal 1: bytes 4096 on are zeros\n"))
    damaged.write_bytes(bytes(4096) + spool.data[4096:])
    holds("nothing is found without the first page", "first page" in reads(1, damaged)[1])
    return 3


def try_deletions(program):
    """`delete --incomplete` deletes what it printed, and nothing before `--yes` or beside an unknown number to keep."""
    program.made("deleted", *script_of_uploads())
    listed, _ = program.does("list", "deleted")
    out, said = program.does("delete", "deleted", "--incomplete")
    same("what would be deleted", out.decode(), "would delete 2\nwould delete 3\n")
    same("what is said then", said, "nothing was deleted: --yes deletes them\n")
    same("the uploads then", program.does("list", "deleted")[0], listed)
    advice = "there is no upload 7 to keep, so nothing is deleted"
    gave = program.refuses(2, "refused: 8 NoSuch", advice, "delete", "deleted", "--incomplete", "--yes", "--but", 3, 7)
    same("where one to keep isn't there", (gave, program.does("list", "deleted")[0]), (b"", listed))
    out, said = program.does("delete", "deleted", "--incomplete", "--but", 3, 2, "--yes")
    same("where all are kept", (out, said), (b"", "nothing to delete\n"))
    kept = "1 is complete, and kept anyhow\n"
    out, said = program.does("delete", "deleted", "--incomplete", "--but", 3, 1)
    same("what would be deleted but one", out.decode(), "would delete 2\n")
    same("what is said of a complete one", said, kept + "nothing was deleted: --yes deletes them\n")
    same("the uploads still", program.does("list", "deleted")[0], listed)
    out, _ = program.does("delete", "deleted", "--incomplete", "--but=3", "--yes")
    same("what was deleted but one", out.decode(), "deleted 2\n")
    out, _ = program.does("delete", "deleted", "--incomplete", "--yes")
    same("what was deleted", out.decode(), "deleted 3\n")
    left = [line for line in listed.decode().splitlines(keepends=True) if line[0] not in "23"]
    same("what is left", program.does("list", "deleted")[0].decode(), "".join(left))
    for words, more in ([], ""), (["--yes"], ""), (["--but", 1], kept):
        gave = program.does("delete", "deleted", "--incomplete", *words)
        same("nothing more", gave, (b"", more + "nothing to delete\n"))
    full = ["open 1", *(line for _ in range(512) for line in post(1, 9, "utf-8"))]
    program.made("full", *full)
    program.does("delete", "full", "--incomplete", "--yes")
    same("a spool full of begun uploads", program.does("list", "full")[0], b"")
    return 514


def new_numbers(program, name, count):
    """The numbers that so many new uploads of a spool get, by the Location of each."""
    lines = ["open 1", *(line for _ in range(count) for line in post(1, 9, "utf-8"))]
    out, _ = program.does("script", name, given="".join(f"{line}\n" for line in lines).encode())
    numbers = [int(it) for it in re.findall(rb"\r\nLocation: /files/(\d+)\r\n", out)]
    same(f"new uploads of {name}", len(numbers), count)
    return numbers


def raises(program, name, number, later):
    """Raises a spool: the later number is printed, and nothing is said."""
    gave = program.does("raise", name, number)
    same(f"what a raise of {name} to {number} prints", gave, (f"next number {later}\n".encode(), ""))


def try_raises(program):
    """`raise` gives a spool a later next number, never an earlier one, and changes no upload."""
    path, begun = program.made("raised", *script_of_uploads()), len(UPLOADS)
    listed, _ = program.does("list", "raised", "--json")
    raises(program, "raised", 1000, 1000)
    same("the uploads after a raise", program.does("list", "raised", "--json")[0], listed)
    same("the number after a raise", new_numbers(program, "raised", 2), [1000, 1001])
    before = path.read_bytes()
    for lower in 0, 1, begun, 1001, 1002:
        raises(program, "raised", lower, 1002)
        same(f"the bytes after a raise to {lower}", path.read_bytes() == before, True)
    for larger in MOST + 1, 10**18, 2**64 - 1:
        program.refuses(2, "refused: 42 NumberTooLarge", f"at most {MOST}", "raise", "raised", larger)
    same("the bytes after a raise too high", path.read_bytes() == before, True)
    same("the number after a refusal", new_numbers(program, "raised", 1), [1002])
    raises(program, "raised", MOST - 1, MOST - 1)
    same("a late number", new_numbers(program, "raised", 1), [MOST - 1])
    raises(program, "raised", MOST, MOST)
    same("the latest number", new_numbers(program, "raised", 1), [MOST])
    return 11 + try_copy(program) + try_firsts(program)


def try_copy(program):
    """A copy that is put back gives numbers again; raised above them before, it gives none of them."""
    path = program.made("live", *script_of_uploads())
    copy = path.read_bytes()
    given = new_numbers(program, "live", 5)
    path.write_bytes(copy)
    same("the numbers of a copy that isn't raised", new_numbers(program, "live", 5), given)
    path.write_bytes(copy)
    listed, first = program.does("list", "live")[0], given[-1] + 1
    raises(program, "live", first, first)
    same("the uploads of a copy that is raised", program.does("list", "live")[0], listed)
    same("the numbers of a copy that is raised", new_numbers(program, "live", 5), list(range(first, first + 5)))
    return 1


def try_firsts(program):
    """`format --first` makes a spool whose first upload has that number."""
    formats = ["--blocks", BLOCKS, "--indexes", "idx"]
    plain, said = program.does("format", "unraised", *formats)
    for first, number in (0, 1), (1, 1), (2, 2), (500, 500), (MOST - 1, MOST - 1):
        name = f"from {first}"
        gave = program.does("format", name, *formats, "--first", first)
        same(f"what `format --first {first}` prints", gave, (plain + f"next number {number}\n".encode(), said))
        same(f"the uploads of {name}", program.does("list", name)[0], b"")
        same(f"the first number of {name}", new_numbers(program, name, 1), [number])
    same("the first number without `--first`", new_numbers(program, "unraised", 1), [1])
    return 5


def try_refusals(program):
    """Each refusal says what to do."""
    folder = program.folder
    (folder / "text").write_bytes(b"no spool at all" * 1000)
    whole = (folder / "whole").read_bytes()
    (folder / "short").write_bytes(whole[: len(whole) // 2])
    (folder / "torn").write_bytes(with_byte(whole, 2000, 1))
    (folder / "later").write_bytes(with_byte(whole, 3, 9))
    formats = ["--blocks", BLOCKS, "--indexes", "idx"]
    cases = [("refused: 13 AlreadySpool", "whole is a spool, and stays as it is", "format", "whole", *formats)]
    cases += [("refused: 14 Size", "16 to 65536", "format", "new", "--blocks", 8, "--indexes", "idx")]
    cases += [("refused: 35 AlreadyNew", "whole is of version 2", "upgrade", "whole")]
    for words in ["raise", "whole"], ["format", "new", *formats, "--first"]:
        cases += [("refused: 42 NumberTooLarge", f"the number is at most {MOST}", *words, MOST + 1)]
    for name, line, refusal in ("form", b"0\tx\n", "3 Line"), ("twice", b"0\t0xA0\n0\t0xA0\n", "5 Twice"):
        shutil.copytree(folder / "idx", folder / name)
        (folder / name / "index-koi8-r.txt").write_bytes(line)
        told, made = f"refused: {refusal} index-koi8-r.txt {line.count(b'0x') or 1}", ["--blocks", BLOCKS]
        cases += [(told, f"{name}/index-koi8-r.txt is damaged", "format", "new", *made, "--indexes", name)]
    nowhere = ["format", "new", "--blocks", BLOCKS, "--indexes", "nowhere"]
    cases += [("refused: 33 Io", "The standard's index files are in /usr/share/wovelatsa/indexes", *nowhere)]
    cases += [("refused: 8 NoSuch", "`gateway list` prints the numbers that there are", "delete", "deleted", 99)]
    cases += [("refused: 39 CannotOpen", "No such file or directory", "format", "no/where", *formats)]
    commands = [["list"], ["upgrade"], ["raise", 7], ["script"], ["delete", 1], ["export", "idx"], ["up"]]
    for word, *more in [*commands, ["list", "--json"]]:
        cases += [("refused: 39 CannotOpen", "cannot open the spool mistyped: No such file", word, "mistyped", *more)]
        cases += [("refused: 39 CannotOpen", "cannot open the spool idx: Is a directory", word, "idx", *more)]
        cases += [("refused: 15 NotASpool", "text is no spool: see whether the path is right", word, "text", *more)]
        cases += [("refused: 15 NotASpool", "short begins as a spool, but is cut short", word, "short", *more)]
        cases += [("refused: 16 Version", "later is of another version", word, "later", *more)]
        if word != "upgrade":  # which finds first that there is nothing to do
            cases += [("refused: 2 Damaged", "torn is damaged: go back to another copy", word, "torn", *more)]
    for refusal, advice, *words in cases:
        program.refuses(2, refusal, advice, *words)
    same("a spool that was refused", (folder / "whole").read_bytes(), whole)
    holds("a spool was made", not (folder / "new").exists())
    return len(cases)


def try_formats(program):
    """`format` over every kind of file: what stays, what becomes a spool, and how long it is."""
    folder = program.folder
    whole, formats = (folder / "whole").read_bytes(), ["--blocks", BLOCKS, "--indexes", "idx"]
    made, spool, foreign = "made", "refused: 13 AlreadySpool", "refused: 40 NotEmpty"
    kinds = [("missing", None, made), ("empty", b"", made), ("zeros", bytes(100_000), made)]
    kinds += [("longer", bytes(len(whole) + 5), made), ("letter", b"hello\n", foreign)]
    kinds += [("late", bytes(100_000) + b"\1", foreign), ("large", b"a" * (len(whole) + 7), foreign)]
    kinds += [("broken off", bytes(4096) + whole[4096:], foreign), ("no head", bytes(8) + whole[8:], foreign)]
    kinds += [("spool", whole, spool), ("cut", whole[:5000], spool)]
    for name, bytes_, wanted in kinds:
        path = folder / name
        if bytes_ is not None:
            path.write_bytes(bytes_)
        if wanted != made:
            advice = "and stays as it is" if wanted == spool else "--overwrite if nobody needs it"
            program.refuses(2, wanted, advice, "format", name, *formats)
            same(f"{name} after a refusal", path.read_bytes(), bytes_)
        if wanted == spool:
            program.refuses(2, wanted, "and stays as it is", "format", name, *formats, "--overwrite")
            same(f"{name} after a refusal", path.read_bytes(), bytes_)
            continue
        _, said = program.does("format", name, *formats, *([] if wanted == made else ["--overwrite"]))
        size = max(len(whole), len(bytes_ or b""))
        same(f"the length of {name}", path.stat().st_size, size)
        holds(f"what is told of {name}", (f"{name} has {size} bytes, as before" in said) == (size > len(whole)))
        same(f"the uploads of {name}", program.does("list", name)[0], b"")
    (folder / "link").symlink_to("letter 2"), (folder / "letter 2").write_bytes(b"mine")
    program.refuses(2, foreign, "link isn't empty", "format", "link", *formats)
    same("what a link leads to", (folder / "letter 2").read_bytes(), b"mine")
    return len(kinds) + 1 + try_no_room(program, formats) + try_device(program, formats)


def limited():
    """No file gets longer than 64 KiB."""
    resource.setrlimit(resource.RLIMIT_FSIZE, (65536, 65536))


def ignored():
    """Nor here, where it is told as an error."""
    signal.signal(signal.SIGXFSZ, signal.SIG_IGN)
    limited()


def format_limited(program, name, formats, limit):
    """Makes a spool under a limit."""
    words = [program.path, "format", name, *map(str, formats)]
    return subprocess.run(words, capture_output=True, text=True, cwd=program.folder, preexec_fn=limit)


def try_no_room(program, formats):
    """Where there is no room a new file is removed again, and one that was there stays."""
    (program.folder / "there").write_bytes(bytes(10))
    (program.folder / "dangling").symlink_to("behind it")
    gone = "no room for the spool {}, and what there was of it is removed again: "
    for name, words, left in [
        ("small", gone, False),
        ("dangling", gone, False),
        ("there", "no room for the spool {}: ", True),
    ]:
        ran = format_limited(program, name, formats, ignored)
        lines = ran.stderr.splitlines()
        same("the refusal without room", (ran.returncode, lines[0]), (2, "refused: 39 CannotOpen"))
        holds(f"what is told: {lines}", lines[1].startswith(words.format(name)))
        same("whether the file is there", (program.folder / name).exists(), left)
    same("the link, of which only the file is removed", (program.folder / "dangling").is_symlink(), True)
    same("the file behind the link", (program.folder / "behind it").exists(), False)
    # A shell's `ulimit -f` ends it by a signal, and then an empty file stays (docs/OPERATING.md).
    same("the status under ulimit -f", format_limited(program, "ended", formats, limited).returncode, -signal.SIGXFSZ)
    same("the file that stays", (program.folder / "ended").stat().st_size, 0)
    return 4


def try_device(program, formats):
    """A length or a sync that fails while a spool is made is a fault of the device, and no missing right."""
    env = {**os.environ, "LD_PRELOAD": str(build_library(program.folder, "failing", FAILING))}
    for call in "fsync", "ftruncate":
        words = [program.path, "format", f"on {call}", *map(str, formats)]
        ran = subprocess.run(words, capture_output=True, text=True, cwd=program.folder, env={**env, "CALL": call})
        lines = ran.stderr.splitlines()
        same(f"the fault where {call} fails", (ran.returncode, lines[0]), (3, "device fault"))
        holds(f"what is told: {lines}", "Input/output error" in lines[1])
    return 2


def with_byte(whole, at, byte):
    """The spool with another byte at this place of its state page: at 3 its version is, and 2,000 has to be 0."""
    place = Spool(whole).state + at
    return whole[:place] + bytes([byte]) + whole[place + 1 :]


def try_in_use(program):
    """While a gateway serves a spool, each command is told that it is in use."""
    server = Server(program.path, program.folder / "listed")
    advice = "listed is in use: stop the gateway that serves it"
    words = [["list"], ["list", "--long"], ["list", "--json"], ["delete", "--incomplete"]]
    words += [["upgrade"], ["raise", 7], ["script"], ["up"]]
    try:
        for word, *more in words:
            program.refuses(2, "refused: 38 InUse", advice, word, "listed", *more)
    finally:
        server.kill()
    program.does("list", "listed")
    return len(words)


# What becomes of a spool's file while it is served.
LOSSES = {
    "removed": lambda spool: spool.unlink(),
    "cut": lambda spool: os.truncate(spool, 4096),
    "replaced": lambda spool: shutil.copy(spool, f"{spool}.new") and os.replace(f"{spool}.new", spool),
    "kept": lambda spool: os.utime(spool),
}


def begin_losses(program):
    """Serves four spools, and removes, cuts or replaces the files of three of them."""
    begun = {}
    for name, lose in LOSSES.items():
        spool = program.folder / name
        shutil.copy(program.folder / "listed", spool)
        words = [program.path, "up", name, "--listen", "127.0.0.1:0"]
        pipes = {"stdout": subprocess.PIPE, "stderr": subprocess.PIPE, "text": True}
        begun[name] = subprocess.Popen(words, cwd=program.folder, **pipes)
        begun[name].stdout.readline()
        lose(spool)
    return begun


def end_losses(begun):
    """The gateways tell of their lost files after a minute, and of no other."""
    for name, process in begun.items():
        if name == "kept":
            continue
        line = process.stderr.readline()
        told = f"warning: {name} was removed, cut or replaced while it is served: "
        told += "what is acknowledged is lost at the end\n"
        holds(f"a spool that is {name} while it is served: {line!r}", line == told)
    begun["kept"].kill()
    holds("a spool that is kept is told as lost", begun["kept"].stderr.read() == "")


def try_minute(program):
    """The log's line of a minute has the bodies under way, and what is left in the spool. Lost files are told of."""
    begun = begin_losses(program)
    try:
        count = try_line(program)
        end_losses(begun)
        return count
    finally:
        for process in begun.values():
            process.kill()
            process.wait()


def try_line(program):
    """The log's line of a minute."""
    spool = Spool((program.folder / "listed").read_bytes())
    records = spool.records()
    used = sum(-(-it.length // 4096) for it in records)
    incomplete = sum(it.accepted != it.declared for it in records)
    words = [program.path, "up", "listed", "--listen", "127.0.0.1:0", "--log"]
    process = subprocess.Popen(words, cwd=program.folder, stdout=subprocess.PIPE, stderr=subprocess.PIPE, text=True)
    try:
        port = int(process.stdout.readline().rpartition(":")[2])
        with socket.create_connection(("127.0.0.1", port)) as client:
            head = ["PATCH /files/3 HTTP/1.1", "Tus-Resumable: 1.0.0", "Content-Type: application/offset+octet-stream"]
            head += [f"Upload-Offset: {len(UPLOADS[2][0])}", "Content-Length: 9", "", ""]
            client.sendall("\r\n".join(head).encode())
            time.sleep(40)
            client.sendall(b"ab")
            line = process.stderr.readline()
    finally:
        process.kill()
        process.wait()
    left = f"free_blocks={BLOCKS - used} free_slots={512 - len(records)} incomplete={incomplete}"
    holds(f"the line of a minute: {line!r}, not {left!r}", line.endswith(f" bodies=1 {left}\n") and " minute " in line)
    return 1


def main():
    given = parser_of(__doc__).parse_args()
    if not given.indexes:
        raise SystemExit("--indexes DIR: the standard's index files")
    rng = rng_of(given.seed)
    with tempfile.TemporaryDirectory() as folder:
        folder = Path(folder)
        shutil.copytree(given.indexes, folder / "idx")
        program = Program(given.program, folder)
        told = {
            "folders of index files": try_indexes(program, rng),
            "texts": try_texts(program, rng),
            "uploads listed": try_lists(program),
            "copies read": try_reader(program),
            "uploads deleted": try_deletions(program),
            "raises": try_raises(program),
            "refusals": try_refusals(program),
            "files that format is given": try_formats(program),
            "commands beside a gateway": try_in_use(program),
            "minute of the log": try_minute(program),
        }
    print(", ".join(f"{count} {what}" for what, count in told.items()), "all as they have to be", sep=": ")


if __name__ == "__main__":
    try:
        main()
    except Wrong as wrong:
        raise SystemExit(f"wrong: {wrong}") from None
