#!/usr/bin/env python3
"""What is synced, and when: each change lies on the disk, by its four syncs, before its reply goes out.

    python3 tests/clients/syncs.py [--program PATH] [--indexes DIR] [--changes N] [--seed N]

A small C library, made in a temporary folder and loaded before the C library, logs the calls that reach the spool and
those that give replies. Each call is a letter, by its kind and its place in the spool, and the log of a run has to be a
word of a pattern. A commit is the texts and the journal's pages, a sync, the gate opened, a sync, the pages at their
places, a sync, the gate closed, a sync; every reply that acknowledges a change stands right after a commit of its own,
over a script's output and over sockets. Also a spool is made (its file, its folder and all pages but the first are
synced before that one is written, and that one before the line is printed; once its length is set all of the file is
synced by fsync, and from then on its data alone may be), opened with its gate closed and with its gate open, raised,
which is one commit of the state page, or none where the number isn't later, made and raised at once, made by a link of
another folder, and upgraded. The status is 0 where all was so, over at least --changes changes of each run.
"""

import re
import subprocess
import tempfile
from pathlib import Path

from calls import ACKNOWLEDGED, Log, acknowledged
from harness import Client, Server, Wrong, has_open_gate, indexes_in, make_old, parser_of, random_sample, rng_of, same
from harness import write_at
from history import History
from spools import OPEN, PAGE, Spool

BLOCKS = 64
# The letters of a word: B page 0, O and C the gate opened and closed, J the journal, I the indexes, P the metadata's
# places, T the texts, X anything else; S a sync (s of the data alone), F one of the folder, L the length set; R output
# that acknowledges a change, and r other output.
COMMIT = "T*J+[Ss]O[Ss]P+[Ss]C[Ss]"
SERVED = f"[Ss](?:{COMMIT}r*R?|T|r)*"
RECOVERED = "[Ss]P+[Ss]C[Ss]"
# (`list` opens the spool once more where a text has U+FFFD)
OPENED = "[Ss]r*"
FORMATTED = "LSF[CJIPT]+[Ss]B[Ss]"
RAISED = f"[Ss]{COMMIT}"


def letter(spool, call):
    """The letter of a call."""
    if call.kind == "r":
        return "R" if ACKNOWLEDGED.search(call.data) else "r"
    if call.kind != "w":
        return {"s": "S", "d": "s", "f": "F", "l": "L"}[call.kind]
    first, last = (letter_at(spool, at) for at in (call.at, call.at + len(call.data) - 1))
    if first == "C" and call.data[0] == OPEN:
        first = last = "O"
    return first if first == last else "X"


def letter_at(spool, at):
    """The letter of a byte's place."""
    starts = [(0, "B"), (PAGE, "C"), (2 * PAGE, "J"), (spool.indexes, "I"), (spool.state, "P"), (spool.texts, "T")]
    return [name for start, name in starts if start <= at][-1] if at < spool.size else "X"


def word_of(spool, calls):
    return "".join(letter(spool, call) for call in calls if call.kind != "g")


def short(word):
    """A word in which letters that come again and again are counted."""
    return re.sub(r"(.)\1{3,}", lambda it: f"{it[1]}*{len(it[0])} ", word)


def is_word(what, pattern, word):
    """Fails where a word isn't one of the pattern, with the place from which on it isn't."""
    if not re.fullmatch(pattern, word):
        good = max((end for end in range(len(word) + 1) if re.fullmatch(pattern, word[:end])), default=0)
        raise Wrong(f"{what}: {short(word[max(0, good - 30):good])} and then {short(word[good:good + 40])}")


def is_served(what, log, changes):
    """A run's log is a word of commits, each change that was acknowledged has one, and there were enough of them."""
    spool, calls = Spool(log.spool.read_bytes()), log.calls()
    word, told = word_of(spool, calls), sum(map(acknowledged, calls))
    is_word(what, SERVED, word)
    commits = len(re.findall(COMMIT, word))
    # (a body that is cut is a change without a reply)
    same(f"{what}: the commits", commits, changes.count)
    same(f"{what}: the changes acknowledged", told, changes.answered)
    print(f"{what}: {commits} commits, {told} acknowledged, {len(re.findall('[Ss]', word))} syncs")


def try_format(log, program, indexes):
    """A spool is made."""
    ran, calls = log.run(program, "format", "--blocks", BLOCKS, "--indexes", indexes)
    spool = Spool(log.spool.read_bytes())
    word = word_of(spool, calls)
    same("format: its status", ran.returncode, 0)
    is_word("format", f"{FORMATTED}r+", word)
    written = {call.at for call in calls if call.kind == "w"}
    same("format: the pages written", written, set(range(0, spool.size, PAGE)))
    print(f"format: {len(written)} pages, {len(re.findall('[Ss]', word))} syncs, and its folder's")


def try_format_by_link(log, program, indexes):
    """A spool is made by a link of another folder: its own folder is synced."""
    link = log.spool.parent / "links" / "spool"
    link.parent.mkdir()
    link.symlink_to(log.spool)
    words = [program, "format", link, "--blocks", str(BLOCKS), "--indexes", indexes]
    ran = subprocess.run(words, capture_output=True, env={**log.env(), "LINK": str(link)}, timeout=120)
    same("format by a link: its status", ran.returncode, 0)
    is_word("format by a link", f"{FORMATTED}r+", word_of(Spool(log.spool.read_bytes()), log.calls()))
    print("format by a link: the folder of the file is synced")


def try_script(log, program, given):
    """Changes by a script, some of them cuts."""
    changes = History(rng_of(given.seed, "syncs"), given.changes)
    ran, _ = log.script(program, changes.lines)
    same("script: its status", ran.returncode, 0)
    is_served("script", log, changes)


class Changes:
    """How many changes there were, and how many of them were answered."""

    count = answered = 0

    def made(self):
        self.count, self.answered = self.count + 1, self.answered + 1


def try_serve(log, program, given):
    """Changes over sockets."""
    rng, changes, server = rng_of(given.seed, "serve"), Changes(), Server(program, log.spool, log.env())
    try:
        client = Client(server.port)
        while changes.count < given.changes:
            upload(client, random_sample(rng, rng.choice(["utf-8", "shift_jis", "koi8-r"])), rng, changes)
    finally:
        server.kill()
    is_served("serve", log, changes)


def upload(client, sample, rng, changes):
    """One upload in pieces, which is deleted at last; each change is counted."""
    path, offset = client.create(sample), 0
    changes.made()
    while offset < len(sample.data):
        offset = client.patch(path, offset, sample.data[offset : offset + rng.randrange(1, 3000)])
        changes.made()
    same("the text", client.text(path) == sample.text, True)
    client.delete(path)
    changes.made()


def try_openings(log, program):
    """An opening syncs, and where the gate is open it brings the journal to its places."""
    spool = Spool(log.spool.read_bytes())
    ran, calls = log.run(program, "list")
    is_word("an opening", OPENED, word_of(spool, calls))
    listed = ran.stdout
    with open(log.spool, "r+b") as file:
        write_at(file, PAGE, bytes([OPEN]))
    ran, calls = log.run(program, "list")
    is_word("a recovery", f"{RECOVERED}r*(?:{OPENED})?", word_of(spool, calls))
    same("a recovery: the gate is open", has_open_gate(log.spool), False)
    same("a recovery: what is listed", ran.stdout, listed)
    print("openings: one with the gate closed, one with the gate open")


def is_raised(what, spool, calls):
    """One commit of one page at its place, which is the state page."""
    at = [call.at for call in calls if call.kind == "w" and letter(spool, call) == "P"]
    same(f"{what}: the pages at their places", at[-1:], [spool.state])
    return len(at)


def try_raise(log, program):
    """A raise is one commit of the state page; where the number isn't later nothing is written."""
    spool = Spool(log.spool.read_bytes())
    ran, calls = log.run(program, "raise", 10**6)
    word = word_of(spool, calls)
    same("raise: its status", ran.returncode, 0)
    is_word("raise", f"{RAISED}r+", word)
    same("raise: how many pages", is_raised("raise", spool, calls), 1)
    for number in 1, 10**6:
        ran, calls = log.run(program, "raise", number)
        same(f"raise to {number}: its status", ran.returncode, 0)
        is_word(f"raise to {number}", "[Ss]r+", word_of(spool, calls))
    print(f"raise: 1 page, {len(re.findall('[Ss]', word))} syncs; to a number that isn't later none is written")


def try_format_first(log, program, indexes):
    """A spool is made and raised: both are on the disk before a line is printed."""
    ran, calls = log.run(program, "format", "--blocks", BLOCKS, "--indexes", indexes, "--first", 1000)
    spool = Spool(log.spool.read_bytes())
    same("format --first: its status", ran.returncode, 0)
    is_word("format --first", f"{FORMATTED}{RAISED}r+", word_of(spool, calls))
    is_raised("format --first", spool, calls)
    print("format --first: the spool, and then one commit")


def try_upgrade(log, program):
    """An upgrade is one commit of 257 pages."""
    make_old(log.spool)
    spool = Spool(log.spool.read_bytes())
    ran, calls = log.run(program, "upgrade")
    word = word_of(spool, calls)
    same("upgrade: its status", ran.returncode, 0)
    is_word("upgrade", f"[Ss]{COMMIT}r+", word)
    same("upgrade: the pages at their places", word.count("P"), 257)
    print(f"upgrade: {word.count('P')} pages, {len(re.findall('[Ss]', word))} syncs")


def main():
    words = parser_of(__doc__)
    words.add_argument("--changes", type=int, default=200, help="how many changes by a script and over sockets (200)")
    given = words.parse_args()
    wrong = []
    with tempfile.TemporaryDirectory() as folder:
        log, indexes = Log(folder, Path(folder, "spool")), indexes_in(folder, given.indexes)
        trials = [lambda: try_format(log, given.program, indexes), lambda: try_script(log, given.program, given)]
        trials += [lambda: try_serve(log, given.program, given), lambda: try_openings(log, given.program)]
        trials += [lambda: try_raise(log, given.program), lambda: try_upgrade(log, given.program)]
        trials += [lambda: try_format_first(Log(folder, Path(folder, "first")), given.program, indexes)]
        trials += [lambda: try_format_by_link(Log(folder, Path(folder, "linked")), given.program, indexes)]
        for trial in trials:
            try:
                trial()
            except (Wrong, OSError) as error:
                wrong.append(str(error))
    print("\n".join(wrong) or "each change was synced before its reply")
    raise SystemExit(1 if wrong else 0)


if __name__ == "__main__":
    main()
