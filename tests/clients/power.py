#!/usr/bin/env python3
"""What a failure of the power leaves at each call of a run: nothing acknowledged is lost, nothing comes too early.

    python3 tests/clients/power.py [--program PATH] [--indexes DIR] [--runs N] [--changes N] [--images N] [--places N]
        [--seed N]

The calls of a run are logged (calls.py). After each of them so many images are made of what lies on the disk then: all
that was synced, and of all that was written since, in sectors of 512 bytes, any mixture of old and new. Each image is
opened by the program, listed, each of its texts is read, and one upload more is made; this has to be what a history of
the changes, kept in Python with its codecs, has after a number of changes that is no less than what was acknowledged
until then, and no more than that and the one under way. A new number was given to no upload before. The runs are
scripts of changes over a spool of version 2 and one of version 1; recoveries of images whose gate is open; a raise,
which leaves the same uploads and one of the two next numbers, and the later one once it is told; an upgrade, which
leaves either version with the same uploads, and version 2 once it is told; and the making of a spool, which leaves none
or a whole one, and a whole one once it is told. Of long runs some calls are taken: each beside a sync, and others at
random. The status is 0 where all was so, and the runs met enough images, of which some had an open gate, some lost a
change that wasn't acknowledged, and some kept one.
"""

import collections
import re
import shutil
import subprocess
import tempfile
from pathlib import Path

from calls import Log, acknowledged
from growths import Run, ask, list_of, post
from harness import Wrong, format_spool, has_open_gate, holds, indexes_in, make_old, memory, parser_of, rng_of, same
from harness import version_of
from history import History, text_of
from spools import PAGE, next_number

BLOCKS = 64
SECTOR = 512
RAISED = 10**6
MOST_RECOVERIES = 4
MOST_WRONG = 20


class Disk:
    """The bytes of a file that last, and what was written to it since the last sync."""

    def __init__(self, data):
        self.synced, self.unsynced = bytearray(data), []

    def take(self, call):
        """A call of the run. A sync of the data alone leaves a new length unsynced."""
        if call.kind in "wl":
            self.unsynced.append(call)
        elif call.kind in "sd":
            kept = [it for it in self.unsynced if it.kind == "l" and call.kind == "d"]
            for it in self.unsynced:
                if it not in kept:
                    lay(self.synced, it, 0, len(it.data))
            self.unsynced = kept

    def image(self, rng):
        """What a failure may leave: of each sector that was written since, one of the contents that it had."""
        data, chance = bytearray(self.synced), rng.choice([0.0, 0.5, 0.5, 0.9, 1.0])
        written = {}
        for call in self.unsynced:
            for sector in sectors(call):
                written.setdefault(sector, []).append(call)
        for sector, calls in written.items():
            # (the latest of them by this chance, else an earlier one or none)
            count = len(calls) if rng.random() < chance else rng.randrange(len(calls))
            for call in calls[:count]:
                lay(data, call, max(0, SECTOR * sector - call.at), SECTOR * (sector + 1) - call.at)
        return bytes(data)


def sectors(call):
    """The sectors that a call writes to; a new length is one of its own."""
    if call.kind == "l":
        return [-1]
    return range(call.at // SECTOR, -(-(call.at + len(call.data)) // SECTOR))


def lay(data, call, first, last):
    """Lays the bytes of a call from its first to below its last one over others, or sets the length."""
    if call.kind == "l":
        data[call.at :] = bytes(max(0, call.at - len(data)))
        return
    part, at = call.data[first:last], call.at + first
    data.extend(bytes(max(0, at + len(part) - len(data))))
    data[at : at + len(part)] = part


class Images:
    """Makes images of runs, and has each of them judged."""

    def __init__(self, given, folder):
        self.program, self.count, self.places, self.seed = given.program, given.images, given.places, given.seed
        self.spool, self.folder = folder / "image", folder
        self.met, self.open, self.wrong = collections.Counter(), [], []

    def each(self, what, before, calls, judge):
        """Makes the images after each call, or after enough of them; `judge` is told how many changes were acknowledged
        then. An image whose gate is open is kept for a recovery."""
        rng, disk, told = rng_of(self.seed, "images", what), Disk(before), 0
        places = places_of(rng, calls, self.places)
        for place, call in enumerate(calls):
            disk.take(call)
            told += acknowledged(call)
            for number in range(self.count if place in places else 0):
                image = disk.image(rng)
                self.spool.write_bytes(image)
                gate = len(image) > 8192 and has_open_gate(self.spool)
                self.met[what] += 1
                self.met["open gates"] += gate
                try:
                    left = judge(told, calls[: place + 1])
                except (Wrong, subprocess.SubprocessError, KeyError) as error:
                    self.wrong.append(f"{what}, call {place} of {len(calls)}, image {number}: {error}"[:600])
                    holds("\n".join(self.wrong), len(self.wrong) < MOST_WRONG)
                else:
                    if gate:
                        self.open.append((image, left))

    def opened(self, state, number):
        """Fails unless the image that was written shows these uploads; the next one that is made has this number."""
        same("the uploads", list_of(self.program, self.spool), listed(state))
        lines = ["open 0", *(line for it in state for line in ask(0, "GET", it)), *post(0, 1, "utf-8")]
        run = Run(self.program, self.spool, lines)
        given = b"".join(it for it in run.answers().get("0", []) if isinstance(it, bytes))
        for it, upload in state.items():
            head, _, given = given.partition(b"\r\n\r\n")
            size = int(re.search(rb"Content-Length: (\d+)", head)[1])
            same(f"the text of upload {it}", given[:size], text_of(upload))
            given = given[size:]
        same("the reply to a POST", given.count(b"HTTP/1.1 201"), 1)
        same("the next number", int(re.search(rb"Location: /files/(\d+)", given)[1]), number)


def listed(state):
    """What `list` says of uploads: how many bytes are accepted, and how many declared."""
    return {n: (it.accepted, "?" if it.declared is None else str(it.declared)) for n, it in state.items()}


def places_of(rng, calls, most):
    """All calls, or where these are too many those beside a sync, and others at random."""
    if len(calls) <= most:
        return set(range(len(calls)))
    near = {at + by for at, call in enumerate(calls) if call.kind in "sdf" for by in (-1, 0, 1)}
    return near | set(rng.sample(range(len(calls)), most // 2)) | {len(calls) - 1}


def between(images, changes, told):
    """After how many changes the image shows the uploads, of those that it may: what was acknowledged is there, and at
    most the change that would be acknowledged next."""
    ends = [at + 1 for at, answered in enumerate(changes.replies) if answered]
    first = ends[told - 1] if told else 0
    last = ends[told] if told < len(ends) else changes.count
    got = list_of(images.program, images.spool)
    fits = [at for at in range(first, last + 1) if listed(changes.states[at]) == got]
    holds(f"{got} after {told} changes were acknowledged, not {listed(changes.states[first])}", fits)
    images.opened(changes.states[fits[0]], changes.next_at(fits[0]))
    images.met["changes kept" if fits[0] > first else "changes lost" if last > first else "all told"] += 1
    return changes.states[fits[0]], changes.next_at(fits[0])


def try_run(images, given, name, base):
    """Images of a script of changes over a spool: the uploads at its end, with the spool."""
    changes = History(rng_of(given.seed, "changes", name), given.changes)
    spool = images.folder / "spool"
    shutil.copyfile(base, spool)
    log = Log(images.folder, spool)
    before = spool.read_bytes()
    ran, calls = log.script(images.program, changes.lines)
    same(f"{name}: its status", ran.returncode, 0)
    same(f"{name}: the changes acknowledged", sum(map(acknowledged, calls)), changes.answered)
    images.each(name, before, calls, lambda told, _: between(images, changes, told))
    return changes, spool


def try_recoveries(images):
    """Images of the recoveries of some images whose gate is open, and of recoveries of what these left."""
    rng = rng_of(images.seed, "recoveries")
    for name in "recoveries", "recoveries again":
        kept, images.open = rng.sample(images.open, min(MOST_RECOVERIES, len(images.open))), []
        for image, (state, number) in kept:
            spool = images.folder / "mended"
            spool.write_bytes(image)
            ran, calls = Log(images.folder, spool).run(images.program, "list")
            same(f"{name}: its status", ran.returncode, 0)

            def judge(_told, _calls, state=state, number=number):
                images.opened(state, number)
                return state, number

            images.each(name, image, calls, judge)


def try_raise(images, changes, left):
    """Images of a raise of the spool that a run left."""
    spool, number = images.folder / "raised", changes.next_at(changes.count)
    shutil.copyfile(left, spool)
    before = spool.read_bytes()
    ran, calls = Log(images.folder, spool).run(images.program, "raise", RAISED)
    same("raise: its status", ran.returncode, 0)

    def judge(_told, calls):
        got = next_number(images.spool)
        images.met["raised" if got == RAISED else "not raised"] += 1
        told = any(call.kind == "r" for call in calls)
        holds(f"the next number {got}, told: {told}", got == RAISED or got == number and not told)
        images.opened(changes.states[-1], got)
        return changes.states[-1], got

    images.each("raise", before, calls, judge)


def try_upgrade(images, changes, spool):
    """Images of an upgrade of the spool that a run left."""
    make_old(spool)
    before, number = spool.read_bytes(), changes.next_at(changes.count)
    ran, calls = Log(images.folder, spool).run(images.program, "upgrade")
    same("upgrade: its status", ran.returncode, 0)

    def judge(_told, calls):
        images.opened(changes.states[-1], number)
        version = version_of(images.spool)
        images.met[f"version {version}"] += 1
        holds("version 1, and the upgrade was told", version == 2 or not any(call.kind == "r" for call in calls))
        return changes.states[-1], number

    images.each("upgrade", before, calls, judge)


def try_format(images, indexes, before):
    """Images of the making of a spool in a file of such bytes, or where there is none: no spool, or a whole one."""
    spool = images.folder / "made"
    spool.unlink(missing_ok=True)
    if before is not None:
        spool.write_bytes(before)
    words = ["format", "--blocks", BLOCKS, "--indexes", indexes, *(["--overwrite"] if before else [])]
    ran, calls = Log(images.folder, spool).run(images.program, *words)
    same("format: its status", ran.returncode, 0)
    whole = spool.read_bytes()

    def judge(_told, calls):
        if any(call.kind == "r" for call in calls):
            holds("the spool isn't whole, and it was told", images.spool.read_bytes() == whole)
        front = images.spool.read_bytes()[:PAGE]
        ran = subprocess.run([images.program, "list", str(images.spool)], capture_output=True, timeout=60)
        refusal = ran.stderr.split(b"\n")[0]
        if (ran.returncode, refusal) == (2, b"refused: 15 NotASpool"):
            images.met["no spool"] += 1
            return
        if ran.returncode and front not in ((before or b"")[:PAGE], whole[:PAGE]):
            # (page 0 is torn: docs/FORMAT.md, Format)
            same("the refusal", refusal, b"refused: 2 Damaged")
            images.met["torn"] += 1
            return
        images.opened({}, 1)
        images.met["whole spools"] += 1

    images.each("format", before or b"", calls, judge)


def floors(images, given):
    """What the runs have to have met."""
    least = {"changes lost": 5 * given.runs, "changes kept": 5 * given.runs, "open gates": 5 * given.runs}
    least.update({"recoveries": 10, "version 1": 5, "version 2": 5, "no spool": 5, "whole spools": 1})
    least.update({"raised": 5, "not raised": 5})
    missed = {name: count for name, count in least.items() if images.met[name] < count}
    return [f"{images.met[name]} times {name}, at least {count} expected" for name, count in missed.items()]


def run(given, folder):
    """All runs: what was wrong."""
    indexes, base, old = indexes_in(folder, given.indexes), folder / "base", folder / "old"
    format_spool(given.program, base, BLOCKS, indexes)
    shutil.copyfile(base, old)
    make_old(old)
    images = Images(given, folder)
    for number in range(given.runs):
        for name, spool in ((f"version 2, run {number}", base), (f"version 1, run {number}", old)):
            changes, left = try_run(images, given, name, spool)
    try_recoveries(images)
    try_raise(images, changes, left)
    try_upgrade(images, changes, left)
    for before in None, b"no spool" * 1000:
        try_format(images, indexes, before)
    print(", ".join(f"{name}: {count}" for name, count in images.met.items()))
    return images.wrong + floors(images, given)


def main():
    words = parser_of(__doc__)
    words.add_argument("--runs", type=int, default=3, help="how many runs over each version (3)")
    words.add_argument("--changes", type=int, default=30, help="how many changes each of them makes (30)")
    words.add_argument("--images", type=int, default=2, help="how many images at each call (2)")
    words.add_argument("--places", type=int, default=250, help="how many calls of a run are taken at most, about (250)")
    given = words.parse_args()
    with tempfile.TemporaryDirectory(dir=memory()) as folder:
        try:
            wrong = run(given, Path(folder))
        except Wrong as error:
            wrong = [str(error)]
    print("\n".join(wrong[:20]) or "nothing acknowledged was lost, and nothing came too early")
    raise SystemExit(1 if wrong else 0)


if __name__ == "__main__":
    main()
