#!/usr/bin/env python3
"""Damaged spools, index files and heads: the program takes exactly what the damage leaves, or refuses it, in time.

    python3 tests/clients/hostile.py [--program PATH] [--copies N] [--spools N] [--files N] [--heads N] [--seed N]

A damaged spool, of version 1 or 2, is read by tools/read-spool, which ends within a second of processor time, without a
traceback, and writes each text of which no byte is damaged; a file that is there stays. Such a spool is listed twice.
It has to be refused where one of the checks of an opening doesn't hold (docs/FORMAT.md, read in Python), and to be
taken where nothing is damaged that is checked; only where the bytes of a transcoder's state are damaged it may be
either. Where it is taken, the uploads are those that its records say, and the texts those on its blocks; it is upgraded
where it is of version 1, and refused so too where it isn't taken. A damaged index file is formatted with twice: it is
refused with the line and the number that reading it in Python gives, or taken, and then bytes of Shift_JIS are decoded
by exactly its pairs. A damaged head is given whole and in pieces, whose replies must be the same bytes. Beside a server
each other call is told that the spool is in use, and leaves it as it is. The status is 0 where all was so, nothing hung
or was ended by a signal, no damage was told as a fault of the device (3), and of each kind some were taken and some
refused. What was wrong is printed with its seed.
"""

import collections
import random
import resource
import shutil
import subprocess
import tempfile
from pathlib import Path

import spools
from growths import LONG, SHIFT_JIS, Run, ask, came, patch, post
from harness import ROOT, Server, Wrong, holds, indexes_in, make_old, parser_of, same, version_of

PAGE = 4096
BLOCKS = 16
READER = ROOT / "tools/read-spool"
# How many seconds of a processor it may take to read a small copy.
PATIENCE = 1.0
JIS0208 = "index-jis0208.txt"
POINTERS = 11280
# The pages of a spool of 16 blocks: page 0, the gate, the journal, the indexes, the state, the records, the rows.
PLACES = [range(1), range(1, 2), range(2, 261), range(261, 283), range(283, 284), range(284, 540), range(540, 541)]
HEAD = [
    "PATCH /files/1 HTTP/1.1",
    "Host: localhost",
    "Tus-Resumable: 1.0.0",
    "Content-Type: application/offset+octet-stream",
    "Upload-Offset: 0",
    "Content-Length: 5",
    "Upload-Metadata: from dXRmLTg=,to dXRmLTg=",
]
WORDS = ["", "0", "-1", "9" * 20, "5, 5", "chunked", "\x00", "\xff" * 9, " " * 99, "a" * 9000, "\r\n\r\n", "%2F"]
ALREADY_NEW = b"refused: 35 AlreadyNew"


class Program:
    """The gateway: each run ends in time, by itself, done or with a refusal."""

    def __init__(self, path):
        self.path = path
        self.statuses = collections.Counter()

    def run(self, *words, given=b""):
        ran = subprocess.run([self.path, *map(str, words)], input=given, capture_output=True, timeout=60)
        self.statuses[words[0], ran.returncode] += 1
        holds(f"{words[0]} ended with status {ran.returncode}: {ran.stderr[-200:]}", ran.returncode in (0, 2))
        return ran

    def script(self, spool, lines):
        return self.run("script", spool, given="".join(f"{line}\n" for line in lines).encode())


def damage(rng, data):
    """The bytes with a few of them changed, some moved, or an end cut off."""
    data = bytearray(data)
    kind = rng.randrange(8)
    if kind == 0:
        return bytes(data[: rng.randrange(len(data) + 1)])
    if kind == 1:
        at, to, count = rng.randrange(len(data)), rng.randrange(len(data)), rng.randrange(1, 64)
        data[to : to + count] = data[at : at + count]
    for _ in range(rng.choice([1, 1, 1, 2, 5, 40])):
        if data:
            data[rng.randrange(len(data))] = rng.choice([0, 1, 0x80, 0xA5, 0xFF, rng.randrange(256)])
    return bytes(data)


def damage_spool(rng, data):
    """A spool with a page or two damaged, most of them pages that are read when it is opened."""
    for _ in range(rng.choice([1, 1, 2])):
        pages = rng.choice(PLACES)
        at = PAGE * (rng.choice(pages) if rng.random() < 0.5 else pages[0])
        if rng.random() < 0.6:
            # (a page's first bytes say most)
            place = at + min(int(rng.expovariate(1 / 30)), PAGE - 1)
            data = data[:place] + bytes([rng.choice([0, 1, 2, 7, 0xA5, 0xFF, rng.randrange(256)])]) + data[place + 1 :]
        else:
            data = data[:at] + damage(rng, data[at : at + PAGE]).ljust(PAGE, b"\0") + data[at + PAGE :]
    return data[: rng.randrange(len(data))] if rng.random() < 0.02 else data


def try_copy(_program, rng, folder, sound):
    """A damaged copy is read to its end: each text of which no byte is damaged is written, and no file replaced."""
    copy, into = folder / "copy", folder / "into"
    copy.write_bytes(damage_spool(rng, sound))
    shutil.rmtree(into, ignore_errors=True)
    into.mkdir()
    (into / "2.txt").write_bytes(b"there")
    began = worked()
    ran = subprocess.run([READER, copy, "--into", into], capture_output=True, timeout=60)
    holds(f"it worked for {worked() - began:.1f} seconds", worked() - began < PATIENCE)
    holds(f"{ran.stderr[-300:]} with {ran.returncode}", ran.returncode in (0, 1) and b"Traceback" not in ran.stderr)
    same("the file that was there", (into / "2.txt").read_bytes(), b"there")
    for record in undamaged(spools.Spool(sound), spools.Spool(copy.read_bytes())):
        if record.number != 2:
            text = into / f"{record.number}.txt"
            holds(f"no text of {record.number}: {ran.stderr[-300:]}", text.exists())
            same(f"the text of {record.number}", text.read_bytes(), spools.Spool(sound).text(record))


def worked():
    """How many seconds of a processor the programs took that were run and have ended."""
    used = resource.getrusage(resource.RUSAGE_CHILDREN)
    return used.ru_utime + used.ru_stime


def undamaged(base, left):
    """The records of a spool of which another has each byte, with rows and blocks, and no open gate."""
    if len(left.data) != len(base.data) or left.is_open():
        return []
    left = spools.Spool(left.data[:8] + base.data[8:12] + left.data[12:])
    rows = [{(block, *row) for block, row in enumerate(it.owners())} for it in (base, left)]
    whole = []
    for record in base.records():
        at, owner = base.state + PAGE + spools.RECORD * record.slot, record.slot + 1
        own = [{it for it in some if it[1] == owner} for some in rows]
        places = [range(at, at + spools.RECORD)]
        places += [range(base.texts + PAGE * block, base.texts + PAGE * (block + 1)) for block, _, _ in own[0]]
        if own[0] == own[1] and all(base.data[it.start : it.stop] == left.data[it.start : it.stop] for it in places):
            whole.append(record)
    return whole


def try_spool(program, rng, folder, _sound):
    """A damaged spool is taken as what the damage leaves, or refused, and then taken or refused so again."""
    base, spool = (folder / rng.choice(["sound", "old"])).read_bytes(), folder / "damaged"
    spool.write_bytes(damage_spool(rng, base))
    refusal, left = spools.found(spool.read_bytes())
    first = program.run("list", spool)
    again = program.run("list", spool)
    told = (first.returncode, first.stdout, first.stderr)
    same("listed again", (again.returncode, again.stdout, again.stderr), told)
    if refusal:
        same("the refusal", refusal_in(first), f"refused: {refusal}".encode())
    elif first.returncode:
        same("the refusal", refusal_in(first), f"refused: {spools.DAMAGED}".encode())
        holds("refused, though nothing is damaged", left.checked() != spools.Spool(base).checked())
    else:
        is_taken(program, spool, left, first.stdout)
    upgrade_listed(program, spool, first)


def refusal_in(ran):
    """The refusal that a command ended with: the first of the lines on standard error, and nothing else was said."""
    return ran.stderr.split(b"\n")[0] if (ran.returncode, ran.stdout) == (2, b"") else None


def is_taken(program, spool, left, listed):
    """A damaged spool that was taken has the uploads of its records and the texts of its blocks."""
    records = left.records()
    wanted = [spools.listed(record) for record in records]
    same("the uploads", listed.decode().lower().splitlines(), wanted)
    for record in records:
        ran = Run(program.path, spool, ["open 0", *ask(0, "GET", record.number)])
        text = b"".join(ran.answers()["0"]).partition(b"\r\n\r\n")[2]
        same(f"the text of {record.number}", text, left.text(record))


def upgrade_listed(program, spool, listed):
    """A spool of version 1 is upgraded where it was listed, and lists the same; else it is refused so too. Of version 2
    it is refused before it is found to be damaged after its version."""
    ran = program.run("upgrade", spool)
    if refusal_in(ran) == ALREADY_NEW:
        right = version_of(spool) == 2 and (listed.returncode == 0 or refusal_in(listed) == b"refused: 2 Damaged")
    elif listed.returncode == 0:
        again = program.run("list", spool)
        right = ran.returncode == 0 and version_of(spool) == 2 and again.stdout == listed.stdout
    else:
        right = (ran.returncode, ran.stderr) == (listed.returncode, listed.stderr)
    holds(f"listed {listed.stdout} {listed.stderr}, and upgraded {ran.stdout} {ran.stderr}", right)


def digits(field, base, most):
    """The number in a field of digits, None where it isn't one."""
    known = b"0123456789abcdefABCDEF"[: 10 if base == 10 else None]
    return int(field, base) if 1 <= len(field) <= most and all(it in known for it in field) else None


def read_index(data, bound):
    """What an index file gives: its pairs, or the refusal with the first bad line."""
    pairs, lines = {}, data.split(b"\n")
    lines = [line.removesuffix(b"\r") for line in lines[:-1]] + lines[-1:]
    for place, line in enumerate(lines, 1):
        if line[:1] in (b"", b"#"):
            continue
        first, tab, rest = line.partition(b"\t")
        pointer = digits(first.lstrip(b" "), 10, 6)
        point = digits(rest.partition(b"\t")[0].removeprefix(b"0x"), 16, 8) if tab else None
        if pointer is None or point is None:
            return None, ("3 Line", place)
        if pointer >= bound or not spools.is_scalar(point):
            return None, ("4 Range", place)
        if pointer in pairs:
            return None, ("5 Twice", place)
        pairs[pointer] = point
    return pairs, None


def other_pairs(rng, data):
    """An index file of the form of one, with other pairs in another order."""
    lines = [line.split(b"\t") for line in data.splitlines()]
    for _ in range(rng.choice([1, 5, 500])):
        a, b = rng.choice(lines), rng.choice(lines)
        a[1], b[1] = b[1], a[1]
        rng.choice(lines)[1] = b"0x%04X" % rng.choice([rng.randrange(0xD800), rng.randrange(0xE000, 0x110000)])
    lines = rng.sample(lines, rng.randrange(len(lines) // 2, len(lines)))
    end = rng.choice([b"\n", b"\r\n", b"\n# a remark\n", b"\tmore\n"])
    return end.join(rng.choice([b"", b" "]) + b"\t".join(line) for line in lines)


def try_index(program, rng, folder, sound):
    """A damaged index file is refused with its line, or taken, and then it decodes; and both the same twice."""
    file = folder / "idx" / JIS0208
    file.write_bytes(rng.choice([damage, other_pairs])(rng, sound))
    pairs, refusal = read_index(file.read_bytes(), POINTERS)
    made = [folder / "formatted", folder / "again"]
    for spool in made:
        spool.unlink(missing_ok=True)
    ran, again = [program.run("format", spool, "--blocks", BLOCKS, "--indexes", folder / "idx") for spool in made]
    told = (ran.returncode, ran.stdout, ran.stderr)
    same("formatted again", (again.returncode, again.stdout, again.stderr), told)
    if refusal:
        same("the refusal", refusal_in(ran), f"refused: {refusal[0]} {JIS0208} {refusal[1]}".encode())
        holds("a spool was made", not made[0].exists() and not made[1].exists())
        return
    same("the status", (ran.returncode, ran.stderr.splitlines()[:1]), (0, [b"index files read: 18"]))
    holds("the spool made again is another", made[0].read_bytes() == made[1].read_bytes())
    before, _ = read_index(sound, POINTERS)
    decodes(program, rng, made[0], pairs, [it for it in before if pairs.get(it) != before[it]])


def decodes(program, rng, spool, pairs, changed):
    """Bytes of Shift_JIS are decoded by the pairs: those of pointers that changed, and others."""
    pointers = rng.sample(changed, min(len(changed), 500)) + [rng.randrange(POINTERS) for _ in range(500)]
    data, text = b"", ""
    for pointer in pointers:
        lead, trail = divmod(pointer, 188)
        pair = bytes([lead + (0x81 if lead < 0x1F else 0xC1), trail + (0x40 if trail < 0x3F else 0x41)])
        data, text = data + pair, text + decoded_pair(pairs, pointer, pair[1])
    lines = ["open 0", *post(0, len(data), "shift_jis"), *patch(0, 1, 0, data), *ask(0, "GET", 1)]
    given = b"".join(it for it in Run(program.path, spool, lines).answers()["0"] if isinstance(it, bytes))
    got = given.split(b"\r\n\r\n", 3)[-1].decode()
    for at, (a, b) in enumerate(zip(got, text)):
        same(f"character {at} of {changed[:20]}", a, b)
    same("the length of the text", len(got), len(text))


def decoded_pair(pairs, pointer, trail):
    """The text of two bytes of Shift_JIS (Encoding Standard, 12.3.1): a fault gives its ASCII byte back."""
    if 8836 <= pointer <= 10715:
        return chr(0xE000 - 8836 + pointer)
    if pointer in pairs:
        return chr(pairs[pointer])
    return "\ufffd" + (chr(trail) if trail < 0x80 else "")


def damaged_head(rng):
    lines = list(HEAD)
    for _ in range(rng.choice([1, 1, 2, 3])):
        kind, at = rng.randrange(6), rng.randrange(len(lines))
        name, colon, _ = lines[at].partition(": ")
        if kind == 0:
            lines[at] = name + colon + rng.choice(WORDS)
        elif kind == 1:
            lines.insert(at, lines[rng.randrange(len(lines))])
        elif kind == 2 and len(lines) > 1:
            del lines[at]
        elif kind == 3:
            lines[at:at] = [f"X-{n}: 1" for n in range(rng.choice([1, 50, 58, 70]))]
        elif kind == 4:
            spaced = lines[at].replace(" ", rng.choice(["", "\t", "  "]))
            lines[at] = rng.choice([lines[at].lower(), spaced, " " + lines[at]])
    head = rng.choice(["\r\n", "\r\n", "\r\n", "\n"]).join([*lines, "", ""]).encode("latin-1")
    return damage(rng, head) if rng.random() < 0.4 else head


def gave(out):
    """The bytes that a connection was given, whatever calls they came by, and how it ended."""
    given, at = b"", 0
    while at < len(out):
        line, at = out[at : out.index(b"\n", at)], out.index(b"\n", at) + 1
        if not line.startswith(b"<"):
            return given, line
        count = int(line.split(b" ")[2])
        given, at = given + out[at : at + count], at + count + 1
    return given, b""


def try_head(program, rng, folder, sound):
    """A damaged head, with a body and a sound request after it, has the same replies in whatever pieces it comes."""
    given = (damaged_head(rng) + b"hello" + b"OPTIONS /files HTTP/1.1\r\n\r\n") or b"\n"
    cuts = sorted(rng.randrange(len(given) + 1) for _ in range(rng.choice([1, 2, 3, 30])))
    pieces = [given[a:b] for a, b in zip([0, *cuts], [*cuts, len(given)]) if a < b]
    replies = []
    for parts in [given], pieces:
        shutil.copyfile(folder / "sound", folder / "asked")
        ran = program.script(folder / "asked", ["open 1", *(line for part in parts for line in came(1, part))])
        replies.append((ran.returncode, gave(ran.stdout), program.run("list", folder / "asked").stdout))
    same(f"{given}: the status", replies[0][0], 0)
    same(f"{given}: in pieces", replies[1], replies[0])


def sound_spool(program, folder):
    """A spool with four uploads, one of them without its last bytes, and one of unknown length; a copy of version 1
    lies beside it."""
    spool = folder / "sound"
    program.run("format", spool, "--blocks", BLOCKS, "--indexes", folder / "idx")
    texts = [(LONG[:9000], "utf-8", 9000), (SHIFT_JIS, "shift_jis", len(SHIFT_JIS)), (SHIFT_JIS[:5], "shift_jis", 9)]
    texts.append((SHIFT_JIS[:7], "shift_jis", None))
    lines = ["open 0"]
    for number, (data, label, declared) in enumerate(texts, 1):
        lines += [*post(0, declared, label, f"text {number}"), *patch(0, number, 0, data)]
    same("the texts of the sound spool", program.script(spool, lines).stdout.count(b" 204 "), len(texts))
    shutil.copyfile(spool, folder / "old")
    make_old(folder / "old")
    return spool.read_bytes()


def try_in_use(program, folder):
    """While a server has a spool open, each call of another process is told so, and leaves the spool as it is."""
    spool = folder / "served"
    shutil.copyfile(folder / "sound", spool)
    before, server = spool.read_bytes(), Server(program.path, spool)
    serve = ["--port", "0", "--connections", "1", "--turns", "1"]
    formats = ["--blocks", str(BLOCKS), "--indexes", str(folder / "idx")]
    try:
        for word, *more in ["list"], ["script"], ["upgrade"], ["serve", *serve], ["format", *formats]:
            words = [program.path, word, str(spool), *more]
            ran = subprocess.run(words, input="open 1\n", capture_output=True, text=True, timeout=60)
            advice = f"stop the gateway that serves it (`fuser {spool}` prints its process)"
            said = f"refused: 38 InUse\n{spool} is in use: {advice}\n"
            same(f"{word} beside a server", (ran.returncode, ran.stdout, ran.stderr), (2, "", said))
    finally:
        server.kill()
    same("the bytes of a spool in use", spool.read_bytes(), before)
    same("an opening after it", program.run("list", spool).returncode, 0)


def try_each(name, count, seed, trying, program, folder, sound):
    """Tries so many of them, each by a seed of its own: the seeds that went wrong."""
    wrong = []
    for number in range(count):
        try:
            trying(program, random.Random(f"{seed} {name} {number}"), folder, sound)
        except (Wrong, subprocess.TimeoutExpired) as error:
            print(f"{name} {seed} {number}: {error!r}"[:2000])
            wrong.append(number)
    print(f"{count} {name}, {len(wrong)} wrong", flush=True)
    return wrong


def saw_enough(program, given):
    """Of the spools and of the index files some were taken, and some refused."""
    wrong = []
    for word, count in (("list", given.spools), ("format", given.files)):
        for status in 0, 2:
            if program.statuses[word, status] < count // 10:
                wrong.append(f"{word} ended with status {status} fewer than {count // 10} times")
    return wrong


def main():
    words = parser_of(__doc__)
    words.add_argument("--copies", type=int, default=2000, help="how many damaged copies to read (2000)")
    words.add_argument("--spools", type=int, default=2000, help="how many damaged spools (2000)")
    words.add_argument("--files", type=int, default=1000, help="how many damaged index files (1000)")
    words.add_argument("--heads", type=int, default=3000, help="how many damaged heads (3000)")
    given = words.parse_args()
    program = Program(given.program)
    with tempfile.TemporaryDirectory() as name:
        folder = Path(name)
        shutil.copytree(indexes_in(folder, given.indexes), folder / "idx")
        spool, index = sound_spool(program, folder), (folder / "idx" / JIS0208).read_bytes()
        try_in_use(program, folder)
        wrong = try_each("copies", given.copies, given.seed, try_copy, program, folder, spool)
        wrong += try_each("spools", given.spools, given.seed, try_spool, program, folder, spool)
        wrong += try_each("heads", given.heads, given.seed, try_head, program, folder, spool)
        wrong += try_each("index files", given.files, given.seed, try_index, program, folder, index)
    wrong += (missed := saw_enough(program, given))
    print(", ".join(f"{word} {status}: {count}" for (word, status), count in sorted(program.statuses.items())))
    print("\n".join(missed) or "each was taken or refused as it had to be" * (not wrong))
    raise SystemExit(1 if wrong else 0)


if __name__ == "__main__":
    main()
